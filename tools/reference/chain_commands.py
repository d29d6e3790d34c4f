"""The words of rdf_chain, and a whole run of it."""
from booking import Booking
from chains import ChainRun, joined_part, part_lines, part_of, uncovered, unlike_head, unlike_whole
from commands import Words, file_of
from expressions import SHIPPED
from part_texts import MOST_FILES, part_text, read_part, script_hash
from scripts import read_script
from shard_texts import MOST_BYTES, BadLine
from shards import unlike_shape
from tables import read_table
from values import Refusal, integer

USAGE = (b"usage: rdf_chain run SCRIPT TABLE.. [--slots N] [--cluster N]"
         b" | map SCRIPT NUMBER TABLE [--slots N] [--cluster N]"
         b" | join SCRIPT PART.. | print SCRIPT COUNT PART")
OPTIONS = (b"slots", b"cluster")
MOST_TABLES, MOST_PARTS = 16384, 4096
MOST_PART_BYTES = 1073741824            # of all parts together


class ChainWords(Words):
    """A command, its script, the number that some have behind it, and the files."""

    def __init__(self, words):
        self.command = words[0] if words else b""
        options = OPTIONS if self.command in (b"run", b"map") else ()
        super().__init__(words[1:], USAGE, options)
        for name in options:
            self.number(name)
        if self.command not in COMMANDS or not self.named:
            self.refuse()
        _, most_files, bounds = COMMANDS[self.command]
        self.script, *self.files = self.named
        self.count = None
        if bounds is not None:
            self.count = integer(self.files.pop(0)) if self.files else None
            if self.count is None or not bounds[0] <= self.count <= bounds[1]:
                self.refuse()
        if not 1 <= len(self.files) <= most_files:
            self.refuse()


def run(words, shelf):
    """The status and the bytes that the words call for."""
    try:
        asked = ChainWords(words)
        command, _, _ = COMMANDS[asked.command]
        script = file_of(shelf, asked.script)
        return command(asked, script, read_script(script), shelf)
    except Refusal as refusal:
        return refusal.status, refusal.line + b"\n"


# ---- tables

def tables_of(names, statements, shelf):
    """The tables, and the script booked over the columns of the first one."""
    tables, booking = [], None
    for name in names:
        table = named_table(name, shelf)
        if booking is None:
            booking = Booking(table.columns, SHIPPED).book(statements)
        elif table.columns != tables[0].columns:
            raise Refusal(22, b"file %s differs" % name)
        tables.append(table)
    return tables, booking


def named_table(name, shelf):
    """A table reads as for `rdf`, and its name stands in its refusal."""
    text = file_of(shelf, name)
    try:
        return read_table(text)
    except Refusal as refusal:
        raise Refusal(7, b"table " + name + refusal.line[len(b"table"):]) from None


def ran(asked, script, statements, shelf):
    tables, booking = tables_of(asked.files, statements, shelf)
    status, lines = ChainRun(booking, tables).transcript()
    return status, text_of_lines(lines)


def mapped(asked, script, statements, shelf):
    [table], booking = tables_of(asked.files, statements, shelf)
    return 0, short(part_text(part_of(booking, table, asked.count, script_hash(script))))


# ---- parts

def parts_of(asked, script, statements, shelf):
    """The parts, which have the script and its shape, and the script booked over their columns."""
    parts, taken = [], 0
    for name in asked.files:
        text = file_of(shelf, name)
        taken += len(text)
        if taken > MOST_PART_BYTES:
            raise Refusal(24, b"files longer than 1073741824 bytes")
        try:
            parts.append(read_part(text))
        except BadLine as found:
            raise Refusal(21, b"file %s refused at line %d" % (name, found.number)) from None
    check_files(asked.files, unlike_head(parts, script_hash(script)))
    booking = Booking(parts[0].columns, SHIPPED).book(statements)
    check_files(asked.files, unlike_shape(booking, parts))
    return parts, booking


def check_files(files, unlike):
    if unlike is not None:
        raise Refusal(22, b"file %s differs" % files[unlike])


def check_covered(file):
    if file is not None:
        raise Refusal(23, b"file %d isn't covered once" % file)


def join(asked, script, statements, shelf):
    parts, booking = parts_of(asked, script, statements, shelf)
    check_covered(uncovered(parts))
    return 0, short(part_text(joined_part(booking, parts)))


def printed(asked, script, statements, shelf):
    [part], booking = parts_of(asked, script, statements, shelf)
    check_covered(unlike_whole(part, asked.count))
    status, lines = part_lines(booking, part)
    return status, short(text_of_lines(lines))


# ---- texts

def text_of_lines(lines):
    return b"".join(line + b"\n" for line in lines)


def short(text):
    if len(text) > MOST_BYTES:
        raise Refusal(24, b"part longer than 134217728 bytes")
    return text


# what each does, the most files that it takes, and the bounds of its number, where it has one
COMMANDS = {
    b"run": (ran, MOST_TABLES, None),
    b"map": (mapped, 1, (0, MOST_FILES - 1)),
    b"join": (join, MOST_PARTS, None),
    b"print": (printed, 1, (1, MOST_FILES)),
}
