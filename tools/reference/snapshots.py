"""Snapshots: the entries that pass a node's filters, under nominal or one variation, as a table."""
from transcripts import number
from values import FAULT_NAMES, Fault, Refusal

MOST_STATEMENTS = 256
MOST_BYTES = 67108864
NODE_STATEMENTS = ("Define", "Redefine", "Alias", "Filter", "Vary")
HEADER_WORDS = {"int": b"int", "vect": b"vec"}


def check_plan(booking, statements, name, columns, under):
    """The first refusal of what a snapshot is asked to hold."""
    if name not in booking.nodes:
        raise Refusal(10, b"no node " + name)
    for place, column in enumerate(columns):
        kind = booking.kind_at(booking.nodes[name], column)
        if kind not in HEADER_WORDS or column in columns[:place]:
            raise Refusal(11, b"no column " + column)
    if under is not None and under not in booking.variations:
        raise Refusal(12, b"no variation %s:%s" % under)
    made = sum(statement["what"] in NODE_STATEMENTS for statement in statements)
    if made + 2 * len(columns) + 1 > MOST_STATEMENTS:
        raise Refusal(13, b"too many columns")


def snapshot_rows(analysis, name, columns, under):
    """The cells of the named columns at each entry that passes, in file order."""
    node = analysis.booking.nodes[name]
    rows = []
    for entry, row in enumerate(analysis.rows):
        try:
            if analysis.through(row, node, under):
                rows.append([analysis.column(row, node, column, under) for column in columns])
        except Fault as fault:
            text = (fault.kind + " " + FAULT_NAMES[fault.kind]).encode()
            raise Refusal(8, b"fault at entry %d in %s: %s" % (entry, name, text)) from None
    return rows


def cell_text(value):
    return b";".join(map(number, value)) if isinstance(value, list) else number(value)


def snapshot_text(booking, name, columns, rows):
    node = booking.nodes[name]
    header = [b"%s:%s" % (column, HEADER_WORDS[booking.kind_at(node, column)]) for column in columns]
    lines = [b",".join(header)] + [b",".join(map(cell_text, row)) or b'""' for row in rows]
    text = b"".join(line + b"\n" for line in lines)
    if len(text) > MOST_BYTES:
        raise Refusal(14, b"snapshot longer than 67108864 bytes")
    return text
