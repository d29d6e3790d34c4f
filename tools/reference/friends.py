"""Friends: the columns of another table beside those of the table, where a key is equal."""
from tables import MOST_COLUMNS, Table
from values import CAUSE_NAMES, Refusal

MOST_ELEMENTS_JOINED = 33554432


def refused(cause, entry=None):
    where = b"" if entry is None else b" at entry %d" % entry
    return Refusal(9, b"friend refused" + where + b": " + (cause + " " + CAUSE_NAMES[cause]).encode())


def key_place(table, key):
    for place, column in enumerate(table.columns):
        if column == (key, "int"):
            return place
    raise refused("J1")


def joined(table, friend, key, missing):
    """The table with the friend's columns but the key; all rows of the friend are walked for each entry."""
    own, other = key_place(table, key), key_place(friend, key)
    names = [name for name, _ in table.columns]
    if any(name in names for place, (name, _) in enumerate(friend.columns) if place != other):
        raise refused("J2")
    if len(table.columns) + len(friend.columns) - 1 > MOST_COLUMNS:
        raise refused("J3")
    keys = [row[other] for row in friend.rows]
    for entry, value in enumerate(keys):
        if value in keys[:entry]:
            raise refused("J4", entry)
    nothing = [missing if kind == "int" else [] for _, kind in friend.columns]
    rows = []
    for row in table.rows:
        matching = [found for found in friend.rows if found[other] == row[own]]
        found = matching[0] if matching else nothing
        rows.append(row + found[:other] + found[other + 1:])
    if sum(len(cell) for row in rows for cell in row if isinstance(cell, list)) > MOST_ELEMENTS_JOINED:
        raise refused("J5")
    columns = table.columns + friend.columns[:other] + friend.columns[other + 1:]
    return Table(columns, rows, table.marks)
