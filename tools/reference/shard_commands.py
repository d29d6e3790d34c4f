"""The words of rdf_shard, and a whole run of it."""
from booking import Booking
from commands import file_of
from expressions import SHIPPED
from scripts import read_script
from shard_texts import MOST_BYTES, BadLine, read_shard, shard_text
from shards import merged_lines, shard_of, uncovered, unlike_head, unlike_shape
from tables import read_table
from values import Refusal, integer

USAGE = b"usage: rdf_shard run SCRIPT TABLE SIZE LO HI | merge SCRIPT FILE"
MOST_FILES = 64
MOST = 1000000                          # of SIZE, LO and HI


def run(words, shelf):
    """The status and the bytes that the words call for."""
    try:
        command, given = taken(words)
        if command == b"run":
            return 0, ran(*given, shelf)
        status, lines = merged(given[0], given[1:], shelf)
    except Refusal as refusal:
        status, lines = refusal.status, [refusal.line]
    return status, b"".join(line + b"\n" for line in lines)


def taken(words):
    """The command, and its words with their numbers read."""
    try:
        for word in words:
            word.decode()
    except UnicodeDecodeError:
        raise Refusal(2, USAGE) from None
    command, given = words[0] if words else b"", words[1:]
    if command == b"merge" and 2 <= len(given) <= MOST_FILES + 1:
        return command, given
    if command == b"run" and len(given) == 5:
        numbers = [integer(word) for word in given[2:]]
        bounds = [(1, MOST), (0, MOST), (0, MOST)]
        if all(n is not None and least <= n <= most for n, (least, most) in zip(numbers, bounds)):
            return command, given[:2] + numbers
    raise Refusal(2, USAGE)


def ran(script, table, size, low, high, shelf):
    """The text of a span's shard."""
    statements = read_script(file_of(shelf, script))
    rows = read_table(file_of(shelf, table))
    booking = Booking(rows.columns, SHIPPED).book(statements)
    text = shard_text(shard_of(booking, rows, size, low, high))
    check_bytes(len(text))
    return text


def merged(script, files, shelf):
    statements = read_script(file_of(shelf, script))
    shards, taken_bytes = [], 0
    for name in files:
        text = file_of(shelf, name)
        taken_bytes += len(text)
        check_bytes(taken_bytes)
        try:
            shards.append(read_shard(text))
        except BadLine as found:
            raise Refusal(21, b"file %s refused at line %d" % (name, found.number)) from None
    check_files(files, unlike_head(shards))
    booking = Booking(shards[0].columns, SHIPPED).book(statements)
    check_files(files, unlike_shape(booking, shards))
    cluster = uncovered(shards)
    if cluster is not None:
        raise Refusal(23, b"cluster %d isn't covered once" % cluster)
    return merged_lines(booking, shards)


def check_bytes(count):
    if count > MOST_BYTES:
        raise Refusal(24, b"files longer than 134217728 bytes")


def check_files(files, unlike):
    if unlike is not None:
        raise Refusal(22, b"file %s differs" % files[unlike])
