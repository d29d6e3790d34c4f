"""Expressions: tokens, the scan that places E3, the grammar, kinds, evaluation.

A tree is a tuple: ("int", n), ("bool", b), ("col", name), ("-", a), ("!", a), ("op", o, a, b),
("?", c, a, b), ("[]", v, e), ("call", name, [arguments]).
"""
from values import DIGITS, GREATEST, LETTERS, WORD_BYTES, Cause, Fault, in_64_bits

MARKS = [b"<=", b">=", b"==", b"!=", b"&&", b"||", b"(", b")", b"[", b"]", b"{", b"}", b",", b"?",
         b":", b"+", b"-", b"*", b"/", b"%", b"!", b"<", b">"]
LEVELS = [[b"||"], [b"&&"], [b"==", b"!="], [b"<", b"<=", b">", b">="], [b"+", b"-"],
          [b"*", b"/", b"%"]]
OPERATORS = frozenset(mark for level in LEVELS for mark in level)
MOST_TOKENS = 256


# ---- tokens: (sort, bytes, place), the sort being "name", "truth", "number" or "mark"

def tokens_of(text):
    tokens, at = [], 0
    while at < len(text):
        byte = text[at]
        if byte in b" \t":
            at += 1
            continue
        end = at + 1
        mark = next((m for m in MARKS if text.startswith(m, at)), None)
        if byte in LETTERS:
            while end < len(text) and text[end] in WORD_BYTES:
                end += 1
        elif byte in DIGITS:
            while end < len(text) and text[end] in DIGITS:
                end += 1
            leading_zero = end - at > 1 and byte == 0x30
            if leading_zero or end - at > 19 or int(text[at:end]) > GREATEST:
                raise Cause("E2", at)
        elif mark is None:
            raise Cause("E1", at)
        else:
            end = at + len(mark)
        if len(tokens) == MOST_TOKENS:
            raise Cause("E4", at)
        piece = text[at:end]
        if byte in LETTERS:
            if len(piece) > 64:
                raise Cause("E1", at + 64)
            sort = "truth" if piece in (b"true", b"false") else "name"
        else:
            sort = "number" if byte in DIGITS else "mark"
        tokens.append((sort, piece, at))
        at = end
    return tokens


def scan(tokens, braces):
    """The number of the first token that can't stand where it does, or None."""
    stack, operand, ended = [], True, False
    wants = None                        # a set of marks that alone may come next
    for number, (sort, piece, _) in enumerate(tokens):
        before = tokens[number - 1] if number else (None, None, None)
        top = stack[-1] if stack else None
        if ended:
            return number
        if wants is not None:
            if sort != "mark" or piece not in wants:
                return number
            if piece == b"}":
                stack.pop()
                ended, wants = True, None
            elif piece == b",":
                wants = {b"{"}
            else:
                stack.append("list")
                operand, wants = True, None
            continue
        if operand:
            if sort != "mark":
                operand = False
            elif piece in (b"-", b"!"):
                pass
            elif piece == b"(":
                stack.append("parenthesis")
            elif piece == b")" and top == "call" and before[1] == b"(":
                stack.pop()
                operand = False
            elif piece == b"{" and braces and number == 0:
                stack.append("list")
            elif piece == b"{" and braces and number == 1 and before[1] == b"{":
                stack[-1:] = ["outer", "list"]
            else:
                return number
            continue
        if sort != "mark":
            return number
        if piece in OPERATORS:
            operand = True
        elif piece == b"[" or piece == b"?":
            stack.append(piece.decode())
            operand = True
        elif piece == b"(" and before[0] == "name":
            stack.append("call")
            operand = True
        elif piece == b":" and top == "?":
            stack.pop()
            operand = True
        elif piece == b"," and top in ("call", "list"):
            operand = True
        elif piece == b")" and top in ("parenthesis", "call"):
            stack.pop()
        elif piece == b"]" and top == "[":
            stack.pop()
        elif piece == b"}" and top == "list":
            stack.pop()
            if stack:
                wants = {b",", b"}"}
            else:
                ended = True
        else:
            return number
    return None


class Descent:
    """Reads tokens by the grammar; any token that doesn't fit ends it with ValueError."""

    def __init__(self, tokens):
        self.tokens = tokens
        self.at = 0

    def next_is(self, *marks):
        return (self.at < len(self.tokens) and self.tokens[self.at][0] == "mark"
                and self.tokens[self.at][1] in marks)

    def take(self, *marks):
        if not self.next_is(*marks):
            raise ValueError
        self.at += 1
        return self.tokens[self.at - 1][1]

    def cond(self):
        test = self.level(0)
        if not self.next_is(b"?"):
            return test
        self.take(b"?")
        left = self.cond()
        self.take(b":")
        return ("?", test, left, self.cond())

    def level(self, depth):
        if depth == len(LEVELS):
            return self.unary()
        tree = self.level(depth + 1)
        while self.next_is(*LEVELS[depth]):
            operator = self.take(*LEVELS[depth]).decode()
            tree = ("op", operator, tree, self.level(depth + 1))
        return tree

    def unary(self):
        if self.next_is(b"-", b"!"):
            return (self.take(b"-", b"!").decode(), self.unary())
        tree = self.primary()
        while self.next_is(b"["):
            self.take(b"[")
            tree = ("[]", tree, self.cond())
            self.take(b"]")
        return tree

    def primary(self):
        if self.next_is(b"("):
            self.take(b"(")
            tree = self.cond()
            self.take(b")")
            return tree
        if self.at == len(self.tokens):
            raise ValueError
        sort, piece, _ = self.tokens[self.at]
        if sort == "mark":
            raise ValueError
        self.at += 1
        if sort == "number":
            return ("int", int(piece))
        if sort == "truth":
            return ("bool", piece == b"true")
        if not self.next_is(b"("):
            return ("col", piece)
        self.take(b"(")
        arguments = [] if self.next_is(b")") else self.separated(self.cond)
        self.take(b")")
        return ("call", piece, arguments)

    def separated(self, read):
        found = [read()]
        while self.next_is(b","):
            self.take(b",")
            found.append(read())
        return found

    def list(self):
        self.take(b"{")
        found = self.separated(self.cond)
        self.take(b"}")
        return found

    def values(self):
        if not self.next_is(b"{"):
            return ("vector", self.cond())
        if self.at + 1 < len(self.tokens) and self.tokens[self.at + 1][1] == b"{":
            self.take(b"{")
            lists = self.separated(self.list)
            self.take(b"}")
            return ("lists", lists)
        return ("lists", [self.list()])


def read_with(text, braces, production):
    tokens = tokens_of(text)
    stopped = scan(tokens, braces)
    if stopped is not None:
        raise Cause("E3", tokens[stopped][2])
    descent = Descent(tokens)
    try:
        tree = production(descent)
        if descent.at < len(tokens):
            raise ValueError
    except ValueError:
        raise Cause("E3", len(text)) from None
    return tree


def read_expression(text):
    return read_with(text, False, Descent.cond)


def read_values(text):
    return read_with(text, True, Descent.values)


def columns_in(tree):
    """The names of the columns in a tree, each as often as it stands there."""
    if tree[0] == "col":
        return [tree[1]]
    found = []
    for part in tree[1:]:
        for piece in part if isinstance(part, list) else [part]:
            if isinstance(piece, tuple):
                found += columns_in(piece)
    return found


# ---- kinds

BUILT_IN = {b"Sum": (["vect"], "int"), b"Min": (["vect"], "int"), b"Max": (["vect"], "int"),
            b"Size": (["vect"], "int"), b"Any": (["vect"], "bool"), b"All": (["vect"], "bool"),
            b"At": (["vect", "int"], "int"), b"abs": (["int"], "int")}


def kind_of(tree, columns, functions):
    """The kind of a tree; `columns` gives that of a name, or None. Raises the first Cause."""
    form = tree[0]
    if form in ("int", "bool"):
        return form
    if form == "col":
        kind = columns(tree[1])
        if kind is None:
            raise Cause("S4")
        return kind
    if form == "call":
        return kind_of_call(tree, columns, functions)
    kinds = tuple(kind_of(part, columns, functions) for part in tree[1:] if isinstance(part, tuple))
    numbers = all(kind in ("int", "vect") for kind in kinds)
    if form == "-" and numbers or form == "!" and kinds[0] in ("bool", "vect"):
        return kinds[0]
    if form == "?" and kinds[0] == "bool" and kinds[1] == kinds[2]:
        return kinds[1]
    if form == "[]" and kinds[0] == "vect" and numbers:
        return kinds[1]
    if form == "op":
        operator = tree[1]
        if operator in ("&&", "||"):
            if kinds in (("bool", "bool"), ("vect", "vect")):
                return kinds[0]
        elif operator in ("==", "!=") and kinds == ("bool", "bool"):
            return "bool"
        elif numbers:
            single = "int" if operator in ("+", "-", "*", "/", "%") else "bool"
            return single if kinds == ("int", "int") else "vect"
    raise Cause("S7")


def kind_of_call(tree, columns, functions):
    _, name, arguments = tree
    if name in BUILT_IN:
        wanted, gives = BUILT_IN[name]
    elif name in functions:
        wanted, gives = ["int"] * functions[name][0], "int"
    else:
        raise Cause("S5")
    if len(arguments) != len(wanted):
        raise Cause("S8")
    if [kind_of(argument, columns, functions) for argument in arguments] != wanted:
        raise Cause("S7")
    return gives


# ---- evaluation

def divided(a, b):
    if b == 0:
        raise Fault("F2")
    quotient = abs(a) // abs(b)
    return in_64_bits(quotient if (a < 0) == (b < 0) else -quotient)


def remainder(a, b):
    if b == 0:
        raise Fault("F2")
    rest = abs(a) % abs(b)
    return -rest if a < 0 else rest


ON_NUMBERS = {
    "+": lambda a, b: in_64_bits(a + b), "-": lambda a, b: in_64_bits(a - b),
    "*": lambda a, b: in_64_bits(a * b), "/": divided, "%": remainder,
    "<": lambda a, b: a < b, "<=": lambda a, b: a <= b, ">": lambda a, b: a > b,
    ">=": lambda a, b: a >= b, "==": lambda a, b: a == b, "!=": lambda a, b: a != b,
    "&&": lambda a, b: a != 0 and b != 0, "||": lambda a, b: a != 0 or b != 0,
}


def evaluate(tree, read, functions):
    """What a tree comes to; `read` gives a column's value. Raises the first Fault."""
    form = tree[0]
    if form in ("int", "bool"):
        return tree[1]
    if form == "col":
        return read(tree[1])
    if form == "op" and tree[1] in ("&&", "||"):
        left = evaluate(tree[2], read, functions)
        if left is (tree[1] == "||"):       # only a truth value can be either
            return left
        return applied(tree[1], left, evaluate(tree[3], read, functions))
    if form == "?":
        chosen = tree[2] if evaluate(tree[1], read, functions) else tree[3]
        return evaluate(chosen, read, functions)
    if form == "call":
        return called(tree[1], [evaluate(a, read, functions) for a in tree[2]], functions)
    if form == "op":
        left = evaluate(tree[2], read, functions)
        return applied(tree[1], left, evaluate(tree[3], read, functions))
    first = evaluate(tree[1], read, functions)
    if form == "-":
        return [in_64_bits(-x) for x in first] if isinstance(first, list) else in_64_bits(-first)
    if form == "!":
        return [int(x == 0) for x in first] if isinstance(first, list) else not first
    picked = evaluate(tree[2], read, functions)
    if not isinstance(picked, list):
        return element(first, picked)
    if len(first) != len(picked):
        raise Fault("F5")
    return [x for x, kept in zip(first, picked) if kept != 0]


def applied(operator, left, right):
    function = ON_NUMBERS[operator]
    if not isinstance(left, list) and not isinstance(right, list):
        if isinstance(left, bool) and operator in ("&&", "||"):
            return right                    # the left side didn't decide
        return function(left, right)
    if isinstance(left, list) and isinstance(right, list):
        if len(left) != len(right):
            raise Fault("F5")
        pairs = list(zip(left, right))
    elif isinstance(left, list):
        pairs = [(x, right) for x in left]
    else:
        pairs = [(left, x) for x in right]
    return [int(function(a, b)) for a, b in pairs]


def element(vector, place):
    if not 0 <= place < len(vector):
        raise Fault("F3")
    return vector[place]


def called(name, arguments, functions):
    if name not in BUILT_IN:
        answer = functions[name][1](*arguments)
        if answer is None:
            raise Fault("F8")
        return answer
    first = arguments[0]
    if name == b"Sum":
        total = 0
        for x in first:
            total = in_64_bits(total + x)
        return total
    if name in (b"Min", b"Max"):
        if not first:
            raise Fault("F4")
        return min(first) if name == b"Min" else max(first)
    if name == b"Size":
        return len(first)
    if name == b"Any":
        return any(x != 0 for x in first)
    if name == b"All":
        return all(x != 0 for x in first)
    if name == b"At":
        return element(first, arguments[1])
    return in_64_bits(abs(first))


# ---- the functions that the program hands in

def _kept(value):
    return value if -(2 ** 63) <= value <= GREATEST else None


def square(x):
    return _kept(x * x)


def hyp2(x, y):
    a, b = square(x), square(y)
    return None if a is None or b is None else _kept(a + b)


def clampto(x, low, high):
    return low if x < low else high if x > high else x


SHIPPED = {b"square": (1, square), b"hyp2": (2, hyp2), b"clampto": (3, clampto)}
