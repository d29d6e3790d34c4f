"""A table that is refused: the file's line, the column, the text of the cell, and what it looks like."""
import re
from itertools import islice

from hint import Hint, counted, printable, word
from tables import MOST_BYTES, MOST_COLUMNS, MOST_ELEMENTS, MOST_ENTRIES
from values import integer, is_name

FIELD = rb'(?:"(?:[^"]|"")*(?:"|\Z)[^,\r\n]*|[^,\r\n]*)'
RECORD = re.compile(rb"(?![\r\n]|\Z)" + FIELD + rb"(?:," + FIELD + rb")*")
PACKED = [
    (b"\x1f\x8b", "gzip", "gunzip -c"), (b"\xfd7zXZ", "xz", "xz -dc"), (b"BZh", "bzip2", "bunzip2 -c"),
    (b"\x28\xb5\x2f\xfd", "zstd", "zstd -dc"), (b"PK\x03\x04", "zip", "unzip -p"),
]
BINARY = [
    (b"root", "a ROOT file"), (b"PAR1", "a Parquet file"), (b"\x89HDF", "an HDF5 file"),
    (b"SQLite format 3", "an SQLite file"), (b"\xff\xfe", "UTF-16 text"), (b"\xfe\xff", "UTF-16 text"),
]


class TableFile:
    """The bytes of a table and its records, each as (place in the file, bytes); `name` is what it is called."""

    def __init__(self, data, name="the table"):
        self.data = data
        self.name = name
        self.header = split(next(self.records(), (0, b""))[1])

    def records(self):
        begin = 3 if self.data.startswith(b"\xef\xbb\xbf") else 0
        return ((found.start(), found[0]) for found in RECORD.finditer(self.data, begin))

    def entry(self, number):
        """The record of an entry; None where there is none."""
        return next(islice(self.records(), number + 1, None), None)

    def line_number(self, place):
        before = self.data[:place]
        return (before.count(b"\n") or before.count(b"\r")) + 1


def content(field):
    """What a field holds, without the quotes around it."""
    if field[:1] != b'"':
        return field
    end = re.match(rb'"(?:[^"]|"")*', field).end()
    return field[1:end].replace(b'""', b'"') + field[end + 1:]


def split(record):
    """The fields of a record as (content, where it begins, where it ends)."""
    found, at = [], 0
    pattern = re.compile(FIELD)
    while at <= len(record):
        end = pattern.match(record, at).end()
        found.append((content(record[at:end]), at, end))
        at = end + 1
    return found



def explained(data, said):
    """The hint for a refusal of these bytes, with the number of the file's line, or None for no line."""
    whole = sniffed(data)
    if whole is not None:
        return Hint(whole), None
    if said.cause is None:
        return Hint("it has %d bytes, and a table has at most %d" % (len(data), MOST_BYTES)), None
    table = TableFile(data)
    if said.entry is None:
        return at_header(table, said.field)
    found = table.entry(said.entry)
    if found is None:
        return None
    place, record = found
    number = table.line_number(place)
    if said.cause == "B5":
        entries = sum(1 for _ in table.records()) - 1
        return Hint("a table has at most %d entries, and this has %d" % (MOST_ENTRIES, entries)), number
    fields = split(record)
    if said.cause == "B2":
        return wrong_number(table, record, fields), number
    cell, begin, end = fields[said.field]
    name, _, kind = table.header[said.field][0].partition(b":")
    text = "column %s is %s, and %s" % (word(name), printable(kind), looks(cell, kind))
    return Hint(text, record, begin, end - begin), number


def packed(data):
    """What a packed or binary file is, by its first bytes."""
    for magic, name, tool in PACKED:
        if data.startswith(magic):
            return "it is packed by %s; %s FILE >table.csv unpacks it" % (name, tool)
    return next(("it is %s, and plain text is wanted" % name for magic, name in BINARY if data.startswith(magic)), None)


def sniffed(data):
    """What the whole file looks like, where that is no table."""
    if packed(data) is not None:
        return packed(data)
    if not data.replace(b"\xef\xbb\xbf", b"", 1).strip():
        return "it is empty; its first line names the columns, as pt:int,jets:vec"
    if re.search(rb"(?m)^\s*(\w+\s*=\s*\w+\.\w+\(|Print\()", data[:4096]):
        return "it looks like a script; SCRIPT comes first, and TABLE behind it"
    return None


# ---- the header

def at_header(table, field):
    place, record = next(table.records())
    number = table.line_number(place)
    name, begin, end = table.header[field]
    if len(table.header) == 1:
        for separator, what in ((b"\t", "tabs"), (b";", "semicolons"), (b" ", "blanks"), (b"|", "bars")):
            if separator in record:
                return Hint("%s separate the columns, and commas are wanted" % what, record,
                            record.index(separator), 1), number
    if b":" not in name and not any(b":" in each for each, _, _ in table.header):
        return Hint("the columns have no kinds; %s" % guessed_header(table), record, 0, len(record)), number
    return Hint(fault_of_field(table, field, name), record, begin, end - begin), number


def guessed_header(table):
    """A header with kinds, from the cells of the first entry."""
    first = table.entry(0)
    cells = [cell for cell, _, _ in split(first[1])] if first else []
    parts = []
    for place, (name, _, _) in enumerate(table.header):
        cell = cells[place] if place < len(cells) else b"0"
        parts.append(printable(name.strip()) + (":vec" if b";" in cell or not cell else ":int"))
    return "as the first entry looks: " + ",".join(parts)


def fault_of_field(table, field, text):
    name, colon, kind = text.partition(b":")
    if text != text.strip():
        return "a blank beside %s; between commas stand a name, a colon and a kind alone" % word(text.strip())
    if not colon:
        return "%s has no kind; %s:int or %s:vec is wanted" % ((word(text),) + (printable(text),) * 2)
    if not is_name(name):
        return "%s is no name: letters, digits and _, the first no digit, at most 64" % word(name)
    if kind == b"cut":
        return "marks of clusters stand in the last field alone, behind a column"
    if kind not in (b"int", b"vec"):
        return "%s is no kind; %s" % (word(kind), KINDS_MEANT.get(kind.lower(), "int and vec are"))
    if name in [other.partition(b":")[0] for other, _, _ in table.header[:field]]:
        return "there is a column %s already" % word(name)
    return "a table has at most %d columns, and this has %d" % (MOST_COLUMNS, len(table.header))


FLOATS = "numbers are integers: write them times 10 or 1000, as int"
KINDS_MEANT = {
    b"float": FLOATS, b"double": FLOATS, b"real": FLOATS, b"float32": FLOATS, b"float64": FLOATS,
    b"vect": "vec is meant", b"vector": "vec is meant", b"rvec": "vec is meant", b"list": "vec is meant",
    b"integer": "int is meant", b"int32": "int is meant", b"int64": "int is meant", b"i64": "int is meant",
    b"long": "int is meant", b"int": "int is meant, in small letters", b"vec": "vec is meant, in small letters",
    b"bool": "int is meant, with 0 and 1", b"string": "there are no texts; give each a number",
}


# ---- an entry

def wrong_number(table, record, fields):
    wanted, here = len(table.header), len(fields)
    text = "the header has %s, and this line %s" % (counted(wanted, "field"), counted(here, "field"))
    if here == 1 and b"\t" in record:
        text += "; tabs separate them"
    elif here < wanted and b"\x00" in record:
        text += "; it holds bytes that are no text"
    elif here > wanted and record.endswith(b","):
        text += "; a comma too many at its end"
    elif here > wanted and any(kind_of(name) == b"vec" for name, _, _ in table.header):
        text += "; the elements of a vector stand between semicolons"
    elif here > wanted:
        text += "; numbers have no commas in them"
    extra = fields[wanted][1] if here > wanted else len(record)
    return Hint(text, record, extra, len(record) - extra or 1)


def kind_of(field):
    return field.partition(b":")[2]


SHAPES = [
    (rb"\s+.*|.*\s+", "has a blank beside it"),
    (rb"(?i)[-+]?(nan|null|none|na|n/a)",
     "is no number; a value that isn't there can't be said, and a number of its own can stand for it"),
    (rb"(?i)[-+]?inf(inity)?", "is no number; a number of its own can stand for it"),
    (rb"[-+]?\d*\.\d*([eE][-+]?\d+)?|[-+]?\d+[eE][-+]?\d+",
     "is a float; numbers are integers: write them times 10 or 1000"),
    (rb"\+\d+", "has a +; a number has one spelling"),
    (rb"-0+", "is 0 with a -; a number has one spelling"),
    (rb"-?0\d+", "begins with 0; a number has one spelling"),
    (rb"-?\d{19,}", "is beyond 64 bits: -9223372036854775808 to 9223372036854775807"),
    (rb"(?i)true|false|yes|no", "is a word; 1 and 0 are wanted"),
    (rb"0[xX][0-9a-fA-F]+", "is no decimal number"),
    (rb"\d{1,3}('\d{3}|_\d{3})+", "has marks between its digits"),
]


def looks(cell, kind):
    """What a cell holds and why it isn't of its column's kind."""
    if kind == b"cut":
        return "%s is no mark: 1 where a cluster begins at the entry, and 0 elsewhere" % word(cell)
    if kind == b"int":
        return shape(cell)
    if cell[:1] in b"[({" and cell:
        return "%s has brackets; a vector is 3;4;5, and nothing for no element" % word(cell)
    elements = cell.split(b";")
    if len(elements) > MOST_ELEMENTS:
        return "this cell has %d elements; at most %d are taken" % (len(elements), MOST_ELEMENTS)
    for place, element in enumerate(elements):
        if integer(element) is None:
            if not element:
                return "%s has a semicolon with nothing before or behind it" % word(cell)
            where = ", element %d of the cell" % place if len(elements) > 1 else ""
            return shape(element) + where
    return "%s is no vector" % word(cell)


def shape(cell):
    if not cell:
        return "this cell is empty; a vec cell may be, an int cell not"
    if re.fullmatch(rb"-?\d+(;-?\d+)+", cell):
        return "%s is a vector; the header says vec of such a column" % word(cell)
    for pattern, text in SHAPES:
        if re.fullmatch(pattern, cell, re.S):
            return "%s %s" % (word(cell), text)
    return "%s is no whole number" % word(cell)
