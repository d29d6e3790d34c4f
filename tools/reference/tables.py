"""Tables: CSV records, the header, the cells, the marks, and the clusters of the entries."""
from values import CAUSE_NAMES, Refusal, integer, is_name

MOST_BYTES = 67108864
MOST_ENTRIES = 1000000
MOST_COLUMNS = 64
MOST_ELEMENTS = 4096


def records_of(text):
    """The records of a CSV text: comma, double quote, LF, CR or CR LF; empty lines are skipped."""
    if text.startswith(b"\xef\xbb\xbf"):
        text = text[3:]
    records, at = [], 0
    while at < len(text):
        if text[at] in b"\r\n":
            at += 1
            continue
        fields, ended = [], False
        while not ended:
            field, at = field_at(text, at)
            fields.append(field)
            ended = at == len(text) or text[at] in b"\r\n"
            at += 1
        records.append(fields)
    return records


def field_at(text, at):
    """The field that begins at a place, and the place of the byte that ends it."""
    if text[at:at + 1] != b'"':
        end = plain_end(text, at)
        return text[at:end], end
    content = bytearray()
    at += 1
    while at < len(text):
        if text[at] != 0x22:
            content.append(text[at])
            at += 1
        elif text[at + 1:at + 2] == b'"':
            content.append(0x22)
            at += 2
        else:
            end = plain_end(text, at + 1)       # what follows a closed quote is taken as it is
            return bytes(content) + text[at + 1:end], end
    return bytes(content), at


def plain_end(text, at):
    while at < len(text) and text[at] not in b",\r\n":
        at += 1
    return at


class Table:
    """Columns as (name, kind), rows of numbers and lists, and the entries that are marked."""

    def __init__(self, columns, rows, marks):
        self.columns = columns
        self.rows = rows
        self.marks = marks


def refused(cause, entry=None, field=None):
    """A refusal of the table; `read_friend` makes it one of a friend."""
    where = b"header" if entry is None else b"entry %d" % entry
    if field is not None:
        where += b" field %d" % field
    text = (cause + " " + CAUSE_NAMES[cause]).encode()
    return Refusal(7, b"table refused at " + where + b": " + text)


def read_table(text):
    if len(text) > MOST_BYTES:
        raise Refusal(7, b"table refused: longer than 67108864 bytes")
    records = records_of(text)
    if not records:
        raise refused("B1", field=0)
    header = read_header(records[0])
    rows, marks = [], []
    for entry, record in enumerate(records[1:]):
        if entry == MOST_ENTRIES:
            raise refused("B5", entry)
        if len(record) != len(header):
            raise refused("B2", entry)
        row = []
        for field, (cell, (_, kind)) in enumerate(zip(record, header)):
            if kind == "cut":
                if cell not in (b"0", b"1"):
                    raise refused("B6", entry, field)
                if cell == b"1":
                    marks.append(entry)
                continue
            value = integer(cell) if kind == "int" else vector(cell)
            if value is None:
                raise refused("B3" if kind == "int" else "B4", entry, field)
            row.append(value)
        rows.append(row)
    return Table([column for column in header if column[1] != "cut"], rows, marks)


def read_friend(text):
    """A friend reads as a table does, and is refused with another status and in another name."""
    try:
        return read_table(text)
    except Refusal as refusal:
        raise Refusal(9, b"friend" + refusal.line[len(b"table"):]) from None


def read_header(fields):
    header = []
    for place, field in enumerate(fields):
        name, colon, kind = field.partition(b":")
        good = colon and is_name(name) and name not in [column[0] for column in header]
        if kind == b"cut":
            good = good and 0 < place == len(fields) - 1
        else:
            good = good and kind in (b"int", b"vec") and place < MOST_COLUMNS
        if not good:
            raise refused("B1", field=place)
        header.append((name, {b"int": "int", b"vec": "vect", b"cut": "cut"}[kind]))
    return header


def vector(cell):
    if not cell:
        return []
    parts = [integer(part) for part in cell.split(b";")]
    return None if None in parts or len(parts) > MOST_ELEMENTS else parts


def clusters_of(entries, size, marks):
    """The clusters as ranges (from, to below). One begins at entry 0, at each mark, and where the one before is full."""
    begins, marks = [], set(marks)
    for entry in range(entries):
        if not begins or entry in marks or entry - begins[-1] == size:
            begins.append(entry)
    return list(zip(begins, begins[1:] + [entries]))
