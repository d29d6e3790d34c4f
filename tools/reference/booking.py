"""The nodes and results of a script, and the first line that a check refuses.

A node is its path: the statement that made it, and the node above. `df` is the path that ends.
"""
from expressions import columns_in, kind_of
from values import CAUSE_NAMES, Cause, Refusal

MOST = {"tags": 16, "variations": 128, "results": 64, "watched": 8, "cells": 1048576, "takes": 16}


class Node:
    def __init__(self, statement=None, parent=None):
        self.statement = statement
        self.parent = parent

    def makes(self, *whats):
        return self.statement is not None and self.statement["what"] in whats

    def upwards(self):
        node = self
        while node is not None:
            yield node
            node = node.parent


class Result:
    def __init__(self, number, statement, node):
        self.number = number
        self.statement = statement
        self.node = node
        self.name = statement["name"]
        self.kind = statement.get("kind", "Report")
        self.columns = statement.get("columns", [])
        self.varies = False             # VariationsFor was asked for it
        self.watched = False
        self.filled = False             # a Print before the line in hand filled it
        self.covered = []               # of a Report: the nodes of its named filters


def target(node, name):
    """The column that a name stands for at a node, its aliases followed to the end."""
    for above in node.upwards():
        if above.makes("Alias") and above.statement["column"] == name:
            return target(node, above.statement["target"])
    return name


class Booking:
    def __init__(self, table_columns, functions):
        self.table_columns = dict(table_columns)
        self.functions = functions
        self.nodes = {b"df": Node()}
        self.results = {}
        self.named_filters = []
        self.variations = []            # (name, tag) in order
        self.prints = []
        self.printed_cells = 0
        self.printed_takes = 0

    def book(self, statements):
        for statement in statements:
            try:
                getattr(self, "check_" + statement["what"])(statement)
            except Cause as found:
                cause = found.cause + " " + CAUSE_NAMES[found.cause]
                raise Refusal(6, b"script refused at line %d: %s"
                              % (statement["line"], cause.encode())) from None
        return self

    # ---- what is visible

    def kind_at(self, node, name):
        """The kind of a column read at a node, or None where it isn't visible there."""
        name = target(node, name)
        for above in node.upwards():
            if above.makes("Define", "Redefine") and above.statement["column"] == name:
                return self.kind_of(above.statement["expression"], above.parent)
        return self.table_columns.get(name)

    def kind_of(self, tree, node):
        return kind_of(tree, lambda name: self.kind_at(node, name), self.functions)

    def depends(self, node, name):
        """The variations on which a column, read at a node, depends."""
        name = target(node, name)
        found = set()
        for above in node.upwards():
            if above.makes("Define", "Redefine") and above.statement["column"] == name:
                return found | self.depends_of(above.statement["expression"], above.parent)
            if above.makes("Vary") and name in above.statement["columns"]:
                found |= {(above.statement["variation"], tag) for tag in above.statement["tags"]}
        return found

    def depends_of(self, tree, node):
        return set().union(*[self.depends(node, name) for name in columns_in(tree)])

    def result_depends(self, result):
        found = set().union(*[self.depends(result.node, name) for name in result.columns])
        for above in result.node.upwards():
            if above.makes("Filter"):
                found |= self.depends_of(above.statement["expression"], above.parent)
        return found

    def passes(self, result):
        """None for nominal, then the variations in their order."""
        if not result.varies:
            return [None]
        depends = self.result_depends(result)
        return [None] + [variation for variation in self.variations if variation in depends]

    # ---- counts

    def cells(self, result):
        cells = 1
        for edges in result.statement.get("edges", []):
            cells *= len(edges) + 1
        return cells * len(self.passes(result)) if result.kind.startswith("Histo") else 0

    def takes(self, result):
        return len(self.passes(result)) if result.kind == "Take" else 0

    def check_room(self):
        refuse("S13", sum(self.cells(r) for r in self.results.values()) > MOST["cells"])
        refuse("S13", sum(self.takes(r) for r in self.results.values()) > MOST["takes"])

    # ---- the checks of each statement, in their order

    def check_names(self, statement):
        name, parent = statement["name"], statement["parent"]
        refuse("S2", name in self.nodes or name in self.results)
        refuse("S3", parent not in self.nodes)
        return self.nodes[parent]

    def add_node(self, statement, parent):
        self.nodes[statement["name"]] = Node(statement, parent)

    def check_Define(self, statement):
        parent = self.check_names(statement)
        refuse("S2", self.kind_at(parent, statement["column"]) is not None)
        self.kind_of(statement["expression"], parent)
        self.add_node(statement, parent)

    def check_Redefine(self, statement):
        parent = self.check_names(statement)
        self.check_changed(parent, statement["column"])
        self.kind_of(statement["expression"], parent)
        self.add_node(statement, parent)

    def check_changed(self, parent, column):
        refuse("S4", self.kind_at(parent, column) is None)
        refuse("S10", target(parent, column) != column)

    def check_Alias(self, statement):
        parent = self.check_names(statement)
        refuse("S2", self.kind_at(parent, statement["column"]) is not None)
        refuse("S4", self.kind_at(parent, statement["target"]) is None)
        self.add_node(statement, parent)

    def check_Filter(self, statement):
        parent = self.check_names(statement)
        refuse("S7", self.kind_of(statement["expression"], parent) != "bool")
        self.add_node(statement, parent)
        if statement["label"] is not None:
            self.named_filters.append(self.nodes[statement["name"]])

    def check_Vary(self, statement):
        parent = self.check_names(statement)
        columns, tags, name = statement["columns"], statement["tags"], statement["variation"]
        refuse("S2", len(set(columns)) < len(columns))
        for column in columns:
            self.check_changed(parent, column)
        refuse("S2", len(set(tags)) < len(tags))
        refuse("S2", name in [variation[0] for variation in self.variations])
        refuse("S13", len(tags) > MOST["tags"])
        refuse("S13", len(self.variations) + len(tags) > MOST["variations"])
        form, values = statement["values"]
        if form == "lists":
            refuse("S8", len(values) != len(columns))
            for column, trees in zip(columns, values):
                refuse("S8", len(trees) != len(tags))
                for tree in trees:
                    refuse("S7", self.kind_of(tree, parent) != self.kind_at(parent, column))
        else:
            refuse("S8", len(columns) != 1)
            refuse("S7", self.kind_of(values, parent) != "vect")
            refuse("S7", self.kind_at(parent, columns[0]) != "int")
        self.variations += [(name, tag) for tag in tags]
        self.add_node(statement, parent)

    def check_action(self, statement):
        parent = self.check_names(statement)
        kinds = ()
        for column in statement["columns"]:
            kind = self.kind_at(parent, column)
            refuse("S4", kind is None)
            kinds += (kind,)
            refuse("S7", not any(taken[:len(kinds)] == kinds for taken in TAKEN[statement["kind"]]))
        for edges in statement.get("edges", []):
            refuse("S12", len(edges) < 2 or any(a >= b for a, b in zip(edges, edges[1:])))
        self.add_result(statement, parent)
        self.check_room()

    def add_result(self, statement, parent):
        refuse("S13", len(self.results) == MOST["results"])
        result = Result(len(self.results), statement, parent)
        self.results[result.name] = result
        return result

    def check_Report(self, statement):
        parent = self.check_names(statement)
        result = self.add_result(statement, parent)
        above = list(parent.upwards())
        result.covered = [f for f in self.named_filters if parent.statement is None or f in above]

    def result_named(self, statement):
        refuse("S3", statement["result"] not in self.results)
        return self.results[statement["result"]]

    def check_VariationsFor(self, statement):
        result = self.result_named(statement)
        refuse("S14", result.kind == "Report")
        refuse("S11", result.filled)
        result.varies = True
        self.check_room()

    def check_Watch(self, statement):
        result = self.result_named(statement)
        refuse("S14", result.kind not in ("Count", "Sum", "Min", "Max"))
        refuse("S11", result.filled)
        result.watched = True
        refuse("S13", sum(r.watched for r in self.results.values()) > MOST["watched"])

    def check_Print(self, statement):
        result = self.result_named(statement)
        self.printed_cells += self.cells(result)
        self.printed_takes += self.takes(result)
        refuse("S13", self.printed_cells > MOST["cells"])
        refuse("S13", self.printed_takes > MOST["takes"])
        waiting = [] if result.filled else [r for r in self.results.values() if not r.filled]
        for each in waiting:
            each.filled = True
        self.prints.append((result, waiting))


# the lists of kinds that each action takes
TAKEN = {
    "Count": [()],
    "Sum": [("int",), ("vect",)], "Min": [("int",), ("vect",)], "Max": [("int",), ("vect",)],
    "Take": [("int",), ("bool",)],
    "Reduce": [("int",)],
    "Histo1D": [("int", "int"), ("vect", "int"), ("vect", "vect")],
    "Histo2D": [("int", "int", "int"), ("vect", "vect", "int"), ("vect", "vect", "vect")],
}


def refuse(cause, refused):
    if refused:
        raise Cause(cause)
