"""Script texts: lines, their tokens, the walk over them, their strings.

A statement is a dict with "line", "what" and the fields of that statement.
"""
from expressions import read_expression, read_values
from values import CAUSE_NAMES, DIGITS, LETTERS, WORD_BYTES, Cause, Refusal, integer, is_label, is_name

MOST_BYTES = 65536
MOST_STATEMENTS = 256
KEPT_WORDS = (b"Print", b"VariationsFor", b"Watch")
REDUCTIONS = (b"min", b"max", b"and", b"or", b"xor", b"wrapadd")


class Syntax(Exception):
    def __init__(self, place, cause="S1"):
        super().__init__(place)
        self.place = place
        self.cause = cause


def read_script(text):
    if len(text) > MOST_BYTES:
        raise Refusal(6, b"script refused: longer than 65536 bytes")
    pieces = text.split(b"\n")
    lines = [p[:-1] if p.endswith(b"\r") else p for p in pieces[:-1]] + pieces[-1:]
    statements = []
    for number, line in enumerate(lines, 1):
        try:
            statement = read_line(line)
        except Syntax as found:
            cause = found.cause + " " + CAUSE_NAMES[found.cause]
            raise Refusal(6, b"script refused at line %d place %d: %s"
                          % (number, found.place, cause.encode())) from None
        if statement is None:
            continue
        if len(statements) == MOST_STATEMENTS:
            raise Refusal(6, b"script refused at line %d: S13 TooMany" % number)
        statement["line"] = number
        statements.append(statement)
    return statements


def tokens_of(line):
    """The tokens as (sort, bytes, place): "word", "integer", "string" or "mark"."""
    tokens, at = [], 0
    while at < len(line):
        byte = line[at]
        end = at + 1
        if byte in b" \t":
            at += 1
            continue
        if byte in b"#":
            break
        if byte in LETTERS:
            sort = "word"
            while end < len(line) and line[end] in WORD_BYTES:
                end += 1
            if not is_name(line[at:end]):
                raise Syntax(at)
        elif byte in DIGITS or byte in b"-" and end < len(line) and line[end] in DIGITS:
            sort = "integer"
            while end < len(line) and line[end] in DIGITS:
                end += 1
            if integer(line[at:end]) is None:
                raise Syntax(at)
        elif byte in b'"':
            sort = "string"
            end = line.find(b'"', at + 1) + 1
            if end == 0 or any(not 0x20 <= b <= 0x7E for b in line[at:end]):
                raise Syntax(at)
        elif byte in b"=.()[],":
            sort = "mark"
        else:
            raise Syntax(at)
        piece = line[at + 1:end - 1] if sort == "string" else line[at:end]
        tokens.append((sort, piece, at))
        at = end
    return tokens


class Walk:
    """Goes over a line's tokens; each string is noted with the role that it plays."""

    def __init__(self, line, tokens):
        self.line = line
        self.tokens = tokens
        self.at = 0
        self.strings = []

    def stuck(self):
        at_end = self.at == len(self.tokens)
        raise Syntax(len(self.line) if at_end else self.tokens[self.at][2])

    def next_is(self, mark):
        return self.at < len(self.tokens) and self.tokens[self.at][:2] == ("mark", mark)

    def take(self, sort, allowed=None):
        if self.at == len(self.tokens):
            self.stuck()
        found, piece, _ = self.tokens[self.at]
        if found != sort or allowed is not None and not allowed(piece):
            self.stuck()
        self.at += 1
        return piece

    def marks(self, marks):
        for mark in marks:
            self.take("mark", lambda piece, mark=mark: piece == bytes([mark]))

    def name(self):
        return self.take("word", lambda piece: piece not in KEPT_WORDS)

    def string(self, role):
        """The place among the line's strings, to be filled once all tokens were walked."""
        self.take("string")
        self.strings.append((role, self.tokens[self.at - 1]))
        return len(self.strings) - 1

    def separated(self, read):
        found = [read()]
        while self.next_is(b","):
            self.marks(b",")
            found.append(read())
        return found

    def listed(self, read):
        self.marks(b"[")
        found = self.separated(read)
        self.marks(b"]")
        return found

    def more(self, role):
        """A further string after a comma, where there is one."""
        if not self.next_is(b","):
            return None
        self.marks(b",")
        return self.string(role)

    def edges(self):
        return self.listed(lambda: int(self.take("integer")))


def read_line(line):
    tokens = tokens_of(line)
    if not tokens:
        return None
    walk = Walk(line, tokens)
    if tokens[0][0] == "word" and tokens[0][1] in KEPT_WORDS:
        what = walk.take("word")
        walk.marks(b"(")
        statement = {"what": what.decode(), "result": walk.name()}
        walk.marks(b")")
    else:
        name = walk.name()
        walk.marks(b"=")
        parent = walk.name()
        walk.marks(b".")
        method = walk.take("word", lambda piece: piece in METHODS)
        walk.marks(b"(")
        statement = METHODS[method](walk)
        walk.marks(b")")
        statement.update(name=name, parent=parent)
        statement.setdefault("what", method.decode())
    if walk.at < len(tokens):
        walk.stuck()
    texts = [read_string(role, token) for role, token in walk.strings]
    for key, places in statement.pop("strings", {}).items():
        if isinstance(places, list):
            statement[key] = [texts[place] for place in places]
        else:
            statement[key] = None if places is None else texts[places]
    if statement["what"] == "Vary" and statement["variation"] is None:
        statement["variation"] = statement["columns"][0]
    return statement


def read_string(role, token):
    _, text, place = token
    if role in ("expression", "values"):
        try:
            return read_expression(text) if role == "expression" else read_values(text)
        except Cause as found:
            raise Syntax(place + 1 + found.place, found.cause) from None
    good = {"name": is_name, "label": is_label, "operation": lambda t: t in REDUCTIONS}[role]
    if not good(text):
        raise Syntax(place)
    return text


# ---- one function for each method, from behind its "(" to before its ")"

def defined(walk):
    column = walk.string("name")
    walk.marks(b",")
    return {"strings": {"column": column, "expression": walk.string("expression")}}


def aliased(walk):
    column = walk.string("name")
    walk.marks(b",")
    return {"strings": {"column": column, "target": walk.string("name")}}


def filtered(walk):
    expression = walk.string("expression")
    return {"strings": {"expression": expression, "label": walk.more("label")}}


def varied(walk):
    several = walk.next_is(b"[")
    columns = walk.listed(lambda: walk.string("name")) if several else [walk.string("name")]
    walk.marks(b",")
    values = walk.string("values")
    walk.marks(b",")
    tags = walk.listed(lambda: walk.string("name"))
    if several:
        walk.marks(b",")
        variation = walk.string("name")
    else:
        variation = walk.more("name")
    return {"strings": {"columns": columns, "values": values, "tags": tags, "variation": variation}}


def action(kind):
    def read(walk):
        return {"what": "action", "kind": kind, "strings": {"columns": [walk.string("name")]}}
    return read


def counted(walk):
    return {"what": "action", "kind": "Count", "columns": []}


def reduced(walk):
    operation = walk.string("operation")
    walk.marks(b",")
    return {"what": "action", "kind": "Reduce",
            "strings": {"operation": operation, "columns": [walk.string("name")]}}


def histogram(axes):
    def read(walk):
        edges = []
        for _ in range(axes):
            edges.append(walk.edges())
            walk.marks(b",")
        columns = [walk.string("name")]
        for _ in range(axes - 1):
            walk.marks(b",")
            columns.append(walk.string("name"))
        weight = walk.more("name")
        if weight is not None:
            columns.append(weight)
        return {"what": "action", "kind": "Histo%dD" % axes, "edges": edges,
                "strings": {"columns": columns}}
    return read


METHODS = {
    b"Define": defined, b"Redefine": defined, b"Alias": aliased, b"Filter": filtered,
    b"Vary": varied, b"Count": counted, b"Sum": action("Sum"), b"Min": action("Min"),
    b"Max": action("Max"), b"Take": action("Take"), b"Reduce": reduced, b"Histo1D": histogram(1),
    b"Histo2D": histogram(2), b"Report": lambda walk: {},
}
