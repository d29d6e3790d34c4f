"""What an analysis comes to: one pass over the entries for each result and variation by itself.

Nothing is kept between two passes, two entries or two columns: each value is worked out afresh.
"""
from booking import target
from expressions import evaluate
from scripts import REDUCTIONS
from values import GREATEST, LEAST, Fault

MOST_WEIGHT = 2 ** 31 - 1


class Analysis:
    def __init__(self, booking, table):
        self.booking = booking
        self.functions = booking.functions
        self.places = {name: i for i, (name, _) in enumerate(table.columns)}
        self.rows = table.rows

    # ---- one entry

    def column(self, row, node, name, variation):
        """The value of a column read at a node under None (nominal) or a variation."""
        name = target(node, name)
        for above in node.upwards():
            statement = above.statement
            if above.makes("Define", "Redefine") and statement["column"] == name:
                return self.value(row, above.parent, statement["expression"], variation)
            if above.makes("Vary") and name in statement["columns"] and variation is not None:
                if variation[0] == statement["variation"]:
                    return self.varied(row, above, name, variation)
        return row[self.places[name]]

    def varied(self, row, node, name, variation):
        statement = node.statement
        form, values = statement["values"]
        place = statement["tags"].index(variation[1])
        if form == "lists":
            tree = values[statement["columns"].index(name)][place]
            return self.value(row, node.parent, tree, variation)
        elements = self.value(row, node.parent, values, variation)
        if len(elements) != len(statement["tags"]):
            raise Fault("F6")
        return elements[place]

    def value(self, row, node, tree, variation):
        return evaluate(tree, lambda name: self.column(row, node, name, variation), self.functions)

    def through(self, row, node, variation):
        """Whether an entry passes the filters from the head down to a node, itself included."""
        filters = [above for above in node.upwards() if above.makes("Filter")]
        return all(self.value(row, f.parent, f.statement["expression"], variation)
                   for f in reversed(filters))

    def fed(self, row, result, variation):
        """The values that an entry feeds to a pass, or None where it is skipped. Raises its Fault."""
        if result.kind == "Report":
            for named in result.covered:
                self.through(row, named, None)
            return None
        if not self.through(row, result.node, variation):
            return None
        values = [self.column(row, result.node, name, variation) for name in result.columns]
        if result.kind.startswith("Histo"):
            check_feed(values, len(result.statement["edges"]))
        return values

    # ---- all entries

    def first_fault(self, passes):
        """The least entry at which a pass faults, the first such pass, and its kind; or None."""
        found = None
        for number, (result, variation) in enumerate(passes):
            for entry, row in enumerate(self.rows):
                if found is not None and entry >= found[0]:
                    break
                try:
                    self.fed(row, result, variation)
                except Fault as fault:
                    found = (entry, number, fault.kind)
                    break
        return found

    def result_of(self, result, variation, rows):
        """What one pass by itself comes to over some rows in file order."""
        fed = [self.fed(row, result, variation) for row in rows]
        return FOLDS[result.kind](result.statement, [values for values in fed if values is not None])

    def cutflow(self, named):
        """How many entries reach a named filter, and how many pass it."""
        reached = [row for row in self.rows if self.through(row, named.parent, None)]
        return len(reached), sum(self.through(row, named, None) for row in reached)


def check_feed(values, axes):
    lengths = [len(value) for value in values if isinstance(value, list)]
    if any(length != lengths[0] for length in lengths):
        raise Fault("F5")
    weights = values[axes:]
    for weight in weights:
        for x in weight if isinstance(weight, list) else [weight]:
            if abs(x) > MOST_WEIGHT:
                raise Fault("F7")


def elements(fed):
    """The numbers of one column, a vector's one by one."""
    return [x for [value] in fed for x in (value if isinstance(value, list) else [value])]


def reduced(statement, fed):
    operation = statement["operation"]
    total = {b"min": GREATEST, b"max": LEAST, b"and": -1}.get(operation, 0)
    for x in elements(fed):
        total = {
            b"min": min(total, x), b"max": max(total, x), b"and": total & x, b"or": total | x,
            b"xor": total ^ x, b"wrapadd": (total + x - LEAST) % 2 ** 64 + LEAST,
        }[operation]
    return total


def cell_of(edges, x):
    return sum(edge <= x for edge in edges)


def histogram(statement, fed):
    axes = statement["edges"]
    cells = {}
    for values in fed:
        lengths = [len(value) for value in values if isinstance(value, list)]
        values = values + [1] * (len(axes) + 1 - len(values))
        for place in range(lengths[0] if lengths else 1):
            item = [value[place] if isinstance(value, list) else value for value in values]
            cell = tuple(cell_of(edges, x) for edges, x in zip(axes, item))
            total, squares = cells.get(cell, (0, 0))
            cells[cell] = (total + item[-1], squares + item[-1] ** 2)
    return cells


assert set(REDUCTIONS) == {b"min", b"max", b"and", b"or", b"xor", b"wrapadd"}
FOLDS = {
    "Count": lambda statement, fed: len(fed),
    "Sum": lambda statement, fed: sum(elements(fed)),
    "Min": lambda statement, fed: min(elements(fed), default=None),
    "Max": lambda statement, fed: max(elements(fed), default=None),
    "Take": lambda statement, fed: [value for [value] in fed],
    "Reduce": reduced,
    "Histo1D": histogram,
    "Histo2D": histogram,
}
