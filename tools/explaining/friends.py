"""A friend: what an entry gains from it, and why it doesn't join."""
from hint import Hint, counted, meant, printable, word
from table_files import TableFile, split
from tables import MOST_COLUMNS, read_header, vector
from values import integer

MOST_ELEMENTS_JOINED = 33554432


def columns_of(table):
    """The columns of a table file, without a column of marks."""
    return [column for column in read_header([name for name, _, _ in table.header]) if column[1] != "cut"]


def place_of(columns, key):
    return next((place for place, column in enumerate(columns) if column == (key, "int")), None)


class Friend:
    """A friend's file with its key."""

    def __init__(self, data, key, missing):
        self.file = TableFile(data)
        self.key = key
        self.missing = missing
        self.columns = columns_of(self.file)
        self.place = place_of(self.columns, key)

    def added(self):
        """The columns that it adds."""
        return self.columns[:self.place] + self.columns[self.place + 1:]

    def entries(self):
        """The records but the header, each with its place in the file."""
        records = self.file.records()
        next(records, None)
        return records

    def gained(self, number):
        """The values that an entry with this key gains."""
        for _, record in self.entries():
            cells = [cell for cell, _, _ in split(record)]
            if integer(cells[self.place]) == number:
                row = [integer(cell) if kind == "int" else vector(cell) for cell, (_, kind) in zip(cells, self.columns)]
                return row[:self.place] + row[self.place + 1:]
        return [self.missing if kind == "int" else [] for _, kind in self.added()]


def explained(table, friend, said):
    """The hint for a friend that doesn't join, and the number of its file's line, or None for no line."""
    return {"J1": no_key, "J2": taken, "J3": too_many, "J4": twice, "J5": too_large}[said.cause](table, friend, said)


def no_key(table, friend, said):
    for which, columns in (("the table", columns_of(table)), ("the friend", friend.columns)):
        if place_of(columns, friend.key) is not None:
            continue
        kind = dict(columns).get(friend.key)
        if kind is not None:
            return Hint("column %s of %s is a vector, and a key is an int column" % (word(friend.key), which)), None
        ints = [name for name, kind in columns if kind == "int"]
        return Hint("%s has no column %s%s" % (which, word(friend.key), meant(friend.key, ints))), None
    return None


def taken(table, friend, said):
    names = [name for name, _ in columns_of(table)]
    for field, (name, _) in enumerate(friend.columns):
        if field != friend.place and name in names:
            _, begin, end = friend.file.header[field]
            place, header = next(friend.file.records())
            text = "the table has a column %s too; another name in the friend's header is wanted" % word(name)
            return Hint(text, header, begin, end - begin), friend.file.line_number(place)
    return None


def too_many(table, friend, said):
    own, others = len(columns_of(table)), len(friend.added())
    return Hint("the table has %s and the friend adds %s; at most %d together"
                % (counted(own, "column"), counted(others, "column"), MOST_COLUMNS)), None


def twice(table, friend, said):
    place, record = friend.file.entry(said.entry)
    cell, begin, end = split(record)[friend.place]
    for number, (_, earlier) in enumerate(friend.entries()):
        if integer(split(earlier)[friend.place][0]) == integer(cell):
            text = "entry %d has the key %s too; a friend has one entry for a key" % (number, printable(cell))
            return Hint(text, record, begin, end - begin), friend.file.line_number(place)
    return None


def too_large(table, friend, said):
    return Hint("the vectors of all entries would have more than %d elements together" % MOST_ELEMENTS_JOINED), None
