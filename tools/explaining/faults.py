"""A fault of an event loop: the expression that faults, with the values at the entry."""
import re

from booked import Booked, OneEntry
from expressions import columns_in, evaluate
from files import lines_of
from hint import Hint, counted, listed, printable, word
from passes import MOST_WEIGHT
from scripts import read_script
from spans import first_faulting, parts_of, placed
from syntax import walked
from table_files import split
from tables import Table, read_header, vector
from values import Fault, integer


def explained(script, table, said, friend=None):
    """The hint for a fault at an entry of a loop, and the number of the script's line."""
    name, variation = label_of(said.label)

    def feed(analysis, row):
        analysis.fed(row, analysis.booking.results[name], variation)

    return at_entry(script, table, said, feed, variation, friend)


def explained_of_node(script, table, said, words):
    """The same of a snapshot, whose entries go through the filters of its node and then have its columns."""
    def feed(analysis, row):
        node = analysis.booking.nodes[words.node]
        if analysis.through(row, node, words.under):
            for column in words.columns:
                analysis.column(row, node, column, words.under)

    return at_entry(script, table, said, feed, words.under)


def at_entry(script, table, said, feed, variation, friend=None):
    statements = read_script(script)
    place, record = table.entry(said.entry)
    header = read_header([name for name, _, _ in table.header])
    cells = [cell for cell, _, _ in split(record)]
    row = [integer(cell) if kind == "int" else vector(cell) for cell, (_, kind) in zip(cells, header) if kind != "cut"]
    columns = [column for column in header if column[1] != "cut"]
    if friend is not None:
        row += friend.gained(row[columns.index((friend.key, "int"))])
        columns += friend.added()
    booking = Booked(columns).book(statements)
    analysis = OneEntry(booking, Table(columns, [row], []))
    try:
        feed(analysis, row)
    except Fault:
        pass
    where = " at entry %d (line %d of %s)" % (said.entry, table.line_number(place), table.name)
    lines = lines_of(script)
    if said.cause == "F6":
        return at_vary(lines, analysis, row, variation, where)
    if analysis.site is None:
        result = booking.results[label_of(said.label)[0]]
        number = result.statement["line"]
        return at_action(lines[number - 1], analysis, row, (result, variation), said.cause, where), number
    statement = next(s for s in statements if any(analysis.site[1] is each for each in trees_of(s)))
    number = statement["line"]
    return at_site(lines[number - 1], analysis, row, said.cause, where), number


def label_of(label):
    found = re.fullmatch(rb"(\w+)(?:\[(\w+):(\w+)\])?", label)
    return found[1], (found[2], found[3]) if found[2] else None


def trees_of(statement):
    if "expression" in statement:
        return [statement["expression"]]
    if "values" not in statement:
        return []
    form, values = statement["values"]
    return [values] if form == "vector" else [tree for trees in values for tree in trees]


# ---- in an expression

class Part:
    """The part of an expression that faults, with what it reads at the entry."""

    def __init__(self, reader, text, tree, read, functions):
        self.reader, self.text, self.tree, self.read, self.functions = reader, text, tree, read, functions

    def spelled(self, tree):
        place, length = self.reader.bytes_of(tree)
        return word(self.text[place:place + length])

    def value(self, tree):
        return evaluate(tree, self.read, self.functions)


def at_site(line, analysis, row, cause, where):
    node, tree, variation = analysis.site

    def read(column):
        return analysis.column(row, node, column, variation)

    for role, token in walked(line):
        if role not in ("expression", "values"):
            continue
        reader, whole = placed(token[1], role)
        for single in [whole] if role == "expression" else trees_of({"values": whole}):
            if single == tree:
                tree = first_faulting(single, read, analysis.functions)
                part = Part(reader, token[1], tree, read, analysis.functions)
                text = REASONS[cause](part) + where + values(tree, read) + REMEDIES[cause]
                place, length = reader.bytes_of(tree)
                return Hint(text, line, token[2] + 1 + place, length)
    return None


def no_element(part):
    vector_part, index = part.tree[2] if part.tree[0] == "call" else part.tree[1:]
    return "%s has %s, counted from 0, and none has the number %d" % (
        part.spelled(vector_part), counted(len(part.value(vector_part)), "element"), part.value(index))


def lengths(part):
    return "%s and %s have %s elements" % (
        *(part.spelled(each) for each in parts_of(part.tree)[:2]),
        listed(str(len(part.value(each))) for each in parts_of(part.tree)[:2]))


REASONS = {
    "F1": lambda part: "%s leaves 64 bits" % part.spelled(part.tree),
    "F2": lambda part: "the divisor %s is 0" % part.spelled(part.tree[3]),
    "F3": no_element,
    "F4": lambda part: "%s has no element, and so no %s" % (part.spelled(part.tree[2][0]), printable(part.tree[1])),
    "F5": lengths,
    "F8": lambda part: "%s leaves 64 bits" % part.spelled(part.tree),
}
REMEDIES = {
    "F1": "; larger units keep it smaller, and a filter above keeps such entries out",
    "F2": "; a filter above keeps such entries out, and x == 0 ? 0 : a / x gives them a value",
    "F3": "; a filter above keeps such entries out, and so does Size(v) > i && .. before it",
    "F4": "; a filter above keeps such entries out, and Size(v) == 0 ? 0 : .. gives them a value",
    "F5": "; what has the same mask has the same length",
    "F8": "; a filter above keeps such entries out",
}


def values(part, read):
    """The values of the columns that a part names."""
    names = list(dict.fromkeys(columns_in(part)))[:4]
    found = []
    for name in names:
        try:
            found.append("%s is %s" % (word(name), shown(read(name))))
        except Fault:
            continue
    return ", where " + listed(found) if found else ""


def shown(value):
    if isinstance(value, bool):
        return "true" if value else "false"
    if isinstance(value, list):
        return ("[" + " ".join(str(each) for each in value[:8]) + (" ..]" if len(value) > 8 else "]"))
    return str(value)


# ---- at the values of a Vary, or in an action

def at_vary(lines, analysis, row, variation, where):
    nodes = [node for node in analysis.booking.nodes.values() if node.makes("Vary")]
    node = next(node for node in nodes if node.statement["variation"] == variation[0])
    vary = node.statement
    got = analysis.value(row, node.parent, vary["values"][1], variation)
    line = lines[vary["line"] - 1]
    token = next(token for role, token in walked(line) if role == "values")
    text = "the vector has %s for %s%s" % (counted(len(got), "value"), counted(len(vary["tags"]), "tag"), where)
    return Hint(text, line, token[2] + 1, len(token[1])), vary["line"]


def at_action(line, analysis, row, filled, cause, where):
    result, variation = filled
    read = [analysis.column(row, result.node, column, variation) for column in result.columns]
    told = listed("%s is %s" % (word(name), shown(value)) for name, value in zip(result.columns, read))
    if cause == "F5":
        text = "the vectors have different lengths%s, where %s%s" % (where, told, REMEDIES["F5"])
    else:
        text = "a weight is beyond %d%s, where %s; larger units keep it smaller" % (MOST_WEIGHT, where, told)
    begin = len(line) - len(line.lstrip())
    return Hint(text, line, begin, len(line.split(b"#")[0].rstrip()) - begin)
