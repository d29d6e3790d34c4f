"""The reference's booking and analysis of one entry, which remember what they worked out: a column that stands
on another twice, and so on down a chain, is looked at once."""
from booking import Booking
from expressions import SHIPPED
from passes import Analysis
from values import Fault


class Booked(Booking):
    """The nodes and results of a script. What a node sees doesn't change once it is there."""

    def __init__(self, columns):
        super().__init__(columns, SHIPPED)
        self.known = {}

    def kind_at(self, node, name):
        return self.remembered(("kind", node, name), super().kind_at)

    def depends(self, node, name):
        return self.remembered(("depends", node, name), super().depends)

    def remembered(self, key, find):
        if key not in self.known:
            self.known[key] = find(*key[1:])
        return self.known[key]


class OneEntry(Analysis):
    """An analysis of one entry; `site` is the expression in which the first fault arose, with its node and variation."""

    def __init__(self, booking, table):
        super().__init__(booking, table)
        self.site = None
        self.known = {}

    def column(self, row, node, name, variation):
        key = (node, name, variation)
        if key not in self.known:
            try:
                self.known[key] = super().column(row, node, name, variation)
            except Fault as fault:
                self.known[key] = fault
        if isinstance(self.known[key], Fault):
            raise self.known[key]
        return self.known[key]

    def value(self, row, node, tree, variation):
        try:
            return super().value(row, node, tree, variation)
        except Fault:
            if self.site is None:
                self.site = (node, tree, variation)
            raise
