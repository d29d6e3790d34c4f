"""An expression that isn't of the grammar: what stands at the place, and what may be meant."""
import re

from expressions import read_expression, tokens_of
from hint import Hint, word
from syntax import walked
from values import Cause

CLOSED_BY = {b"(": b")", b"[": b"]", b"{": b"}"}
LABEL_FIRST = "a filter's expression comes first, and its label behind it"


def explained(line, place, cause):
    """The hint for E1 to E4 at a place of a line; None where no string is there."""
    text, begin = string_at(line, place)
    at = place - begin
    if label_first(walked(line)):
        return Hint(LABEL_FIRST, line, begin, len(text))
    rule = {"E1": bad_byte, "E2": bad_number, "E3": unexpected, "E4": too_long}[cause]
    found = rule(text, at)
    at, length = found[1:] if len(found) == 3 else (at, found[1])
    return Hint(found[0], line, begin + at, length)


def label_first(strings):
    """Whether a filter's label reads as a comparison, so that the two may be swapped."""
    if [role for role, _ in strings] != ["expression", "label"] or not re.search(rb"[<>=]", strings[1][1][1]):
        return False
    try:
        read_expression(strings[1][1][1])
    except Cause:
        return False
    return True


def string_at(line, place):
    for role, (_, text, quote) in walked(line):
        if role in ("expression", "values") and quote < place <= quote + 1 + len(text):
            return text, quote + 1
    raise LookupError


def bad_byte(text, at):
    byte, before = text[at:at + 1], text[:at]
    if re.search(rb"\w$", before) and re.match(rb"\w", text[at:]):
        return "a word has at most 64 letters", 1
    if byte == b"." and re.search(rb"(^|\W)\d+$", before):
        return "numbers are whole: scale by 10 or 1000, as 91200 MeV for 91.2 GeV", 1
    if byte == b".":
        return "there are no methods: Size(v) for v.size(), and names have no dots", 1
    if byte == b"=" and text[at + 1:at + 2] in (b"<", b">"):
        return "comparisons are < <= > >= == !=", 2
    if byte == b"=":
        return "== compares, and a Define gives a name its value", 1
    return {
        b"&": "&& joins truth values, and marks of a vector", b"|": "|| joins truth values, and marks of a vector",
        b"^": "there are no powers: square(x), or x * x", b"'": "there are no texts",
        b";": "an expression ends without ;", b"#": "a comment stands behind the line's call",
    }.get(byte, "%s is no sign of an expression" % word(byte)), 1


def bad_number(text, at):
    number = re.match(rb"\d+", text[at:])[0]
    if number[:1] == b"0":
        return "a number doesn't begin with 0", len(number)
    return "a number has 64 bits: at most 9223372036854775807", len(number)


def too_long(text, at):
    tokens = len(re.findall(rb"\w+|<=|>=|==|!=|&&|\|\||[^\s\w]", text))
    return "an expression has at most 256 tokens, and this has %d; Define a part of it" % tokens, at, 1


def unexpected(text, at):
    tokens = tokens_of(text)
    if not tokens:
        return "the expression is empty", 1
    number = next((i for i, token in enumerate(tokens) if token[2] == at), len(tokens))
    last = tokens[number - 1] if number else (None, b"", 0)
    if number == len(tokens):
        return at_end(text, tokens)
    return before_end(tokens, number, last), len(tokens[number][1])


def at_end(text, tokens):
    """What is missing at the end of an expression."""
    last = tokens[-1]
    if last[0] == "mark" and last[1] not in CLOSED_BY.values():
        return "something is missing behind " + word(last[1]), len(text), 1
    opened = []
    for sort, mark, place in tokens:
        if sort == "mark" and mark in CLOSED_BY:
            opened.append((mark, place))
        elif sort == "mark" and mark in CLOSED_BY.values():
            opened.pop()
    if opened:
        mark, place = opened[-1]
        return "%s is missing: this %s isn't closed" % (CLOSED_BY[mark].decode(), mark.decode()), place, 1
    return "of c ? a : b the : and b are missing", len(text), 1


def before_end(tokens, number, last):
    """What a token may mean where it can't stand."""
    sort, text, at = tokens[number]
    touches = last[2] + len(last[1]) == at
    if text in (b"and", b"or") or last[1] == b"not":
        return "&&, || and ! stand for and, or and not"
    if last[0] == "number" and sort == "name" and touches:
        if re.fullmatch(rb"[eE]\d*", text):
            return "a number is written in plain digits, as 1000"
        if re.match(rb"[xX]", text):
            return "a number is written in plain decimal digits"
        return "* is missing between a number and a name"
    if text == last[1] == b"*":
        return "there are no powers: square(x), or x * x"
    if text in (b"=", b">") and last[1] in (b"<", b">", b"!"):
        return "comparisons are < <= > >= == !="
    if text == b"{" or text == b"[" and number == 0:
        return "values of a Vary stand in braces, as {a, b}, and nothing else does"
    if text in (b")", b"]", b"}"):
        if last[0] == "mark" and last[1] not in (b")", b"]", b"}"):
            return "something is missing before " + word(text)
        return "this %s closes nothing that is open" % text.decode()
    if text == b",":
        return "a comma stands between arguments of a function alone"
    if text == b":":
        return "a : belongs to c ? a : b, and there are no names with ::"
    if sort == "mark":
        return "a number, a column or a function is missing before " + word(text)
    return "an operator is missing before " + word(text)
