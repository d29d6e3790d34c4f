"""Expressions with the places of their parts: the reference's reader, which notes where each tree stands."""
from expressions import BUILT_IN, Descent, evaluate, kind_of, tokens_of
from values import Cause, Fault


def noting(method):
    def read(self, *given):
        begin = self.at
        tree = method(self, *given)
        self.spans.setdefault(id(tree), (begin, self.at - 1))
        return tree
    return read


class Placed(Descent):
    """Reads a text that the grammar takes, and keeps the first and last token of each tree."""

    def __init__(self, text):
        super().__init__(tokens_of(text))
        self.spans = {}

    cond = noting(Descent.cond)
    level = noting(Descent.level)
    unary = noting(Descent.unary)
    primary = noting(Descent.primary)

    def span(self, tree):
        if id(tree) not in self.spans:
            parts = [self.span(part) for part in parts_of(tree)]
            self.spans[id(tree)] = (min(first for first, _ in parts), max(last for _, last in parts))
        return self.spans[id(tree)]

    def bytes_of(self, tree):
        """Where a tree begins in the text, and how long it is."""
        first, last = self.span(tree)
        begin = self.tokens[first][2]
        return begin, self.tokens[last][2] + len(self.tokens[last][1]) - begin


def parts_of(tree):
    found = []
    for part in tree[1:]:
        found += [piece for piece in (part if isinstance(part, list) else [part]) if isinstance(piece, tuple)]
    return found


def placed(text, role):
    """The reader of an expression or of a Vary's values, and what it read."""
    reader = Placed(text)
    return reader, reader.values() if role == "values" else reader.cond()


def first_refused(tree, kinds, functions):
    """The part at which the check of an expression stops, with its cause; or None."""
    known = tree[0] != "call" or tree[1] in BUILT_IN or tree[1] in functions
    if known and not (tree[0] == "call" and len(tree[2]) != arity(tree[1], functions)):
        for part in parts_of(tree):
            found = first_refused(part, kinds, functions)
            if found is not None:
                return found
    try:
        kind_of(tree, kinds, functions)
    except Cause as refused:
        return tree, refused.cause
    return None


def arity(name, functions):
    return len(BUILT_IN[name][0]) if name in BUILT_IN else functions[name][0]


def first_faulting(tree, read, functions):
    """The smallest part whose evaluation faults first; None where the whole has a value."""
    try:
        evaluate(tree, read, functions)
        return None
    except Fault:
        pass
    for part in evaluated_parts(tree, read, functions):
        found = first_faulting(part, read, functions)
        if found is not None:
            return found
    return tree


def evaluated_parts(tree, read, functions):
    """The parts that an evaluation goes to, in order."""
    yield from parts_of(tree)[:1]
    if tree[0] == "?":
        yield tree[2] if evaluate(tree[1], read, functions) else tree[3]
    elif tree[0] == "op" and tree[1] in ("&&", "||"):
        if evaluate(tree[2], read, functions) is not (tree[1] == "||"):
            yield tree[3]
    else:
        yield from parts_of(tree)[1:]
