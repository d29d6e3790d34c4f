"""A line of a script that isn't of the grammar: what stands at the place, and what may be meant."""
import re

from elsewhere import CALLS
from hint import Hint, meant, nearest, word
from scripts import KEPT_WORDS, METHODS, REDUCTIONS, Syntax, Walk, tokens_of

FORMS = {
    b"Define": 'Define("column", "expression")', b"Redefine": 'Redefine("column", "expression")',
    b"Alias": 'Alias("new", "old")', b"Filter": 'Filter("expression", "label")',
    b"Vary": 'Vary("column", "{low, high}", ["down", "up"], "name")',
    b"Count": "Count()", b"Sum": 'Sum("column")', b"Min": 'Min("column")', b"Max": 'Max("column")',
    b"Take": 'Take("column")', b"Reduce": 'Reduce("max", "column")',
    b"Histo1D": 'Histo1D([0, 10, 20], "x", "weight")',
    b"Histo2D": 'Histo2D([0, 10, 20], [0, 5], "x", "y", "weight")', b"Report": "Report()",
}
LINE = "a line is NAME = NODE.Call(..), Print(NAME), VariationsFor(NAME) or Watch(NAME)"


def explained(line, place):
    """The hint for S1 at a place of a line."""
    found = at_byte(line, place)
    if found is None:
        tokens = tokens_before(line, place)
        found = capitals(tokens, line[place:]) or at_string(line, place) or at_token(line, place, tokens)
    place, length = found[1:] if len(found) == 3 else (place, found[1])
    return Hint(found[0], line, place, length)


def tokens_before(line, place):
    """The tokens that end at or before a place."""
    for end in range(place, -1, -1):
        try:
            return [token for token in tokens_of(line[:end]) if token[2] < place]
        except Syntax:
            continue
    return []


# ---- a byte that begins no token, or a token by itself

AT_BYTE = [
    (rb"'", "strings are written in double quotes"),
    (rb"\xe2\x80[\x98-\x9f]", "a typographic quote; strings are written in plain double quotes"),
    (rb";", "a line ends without ;"),
    (rb"//", "a comment begins with #"),
    (rb"\{", "edges stand in brackets, as [0, 10, 20], and there are no models and no braces outside strings"),
    (rb"[:}]", "lists stand in brackets, as [0, 10, 20]"),
    (rb"\+|-(?!\d)", "a whole number stands alone, with its - directly before it, and nothing is computed outside strings"),
    (rb"true\b|false\b", "a truth value can't stand here, and is no name"),
    (rb"[A-Za-z_]\w{64}", "a word has at most 64 letters"),
    (rb"-?0\d|-0", "a number doesn't begin with 0, and 0 has no -"),
    (rb"-?\d{19,}", "a number has 64 bits: -9223372036854775808 to 9223372036854775807"),
    (rb"\t?[^\x20-\x7e\t]", "a byte that isn't ASCII can stand in a comment alone"),
    (rb"[*/%<>!&|?^~@$\\`]", "a sign of an expression; expressions stand in double quotes"),
]


def at_byte(line, place):
    rest = line[place:]
    if rest[:1] == b'"':
        end = rest.find(b'"', 1)
        if end < 0:
            return "this string isn't closed by a double quote on its line", len(rest)
        if any(not 0x20 <= byte <= 0x7E for byte in rest[:end]):
            return "a string holds ASCII letters, digits, signs and blanks alone", end + 1
        return None
    for pattern, text in AT_BYTE:
        found = re.match(pattern, rest)
        if found:
            return text, len(found[0])
    return None


# ---- a string that must be a name, a label or an operation

def walked(line):
    """Each string of a line whose tokens fit, as (its role, its token)."""
    tokens = tokens_of(line)
    walk = Walk(line, tokens)
    if tokens[0][1] not in KEPT_WORDS:
        walk.at = 6
        METHODS[tokens[4][1]](walk)
    return walk.strings


def at_string(line, place):
    try:
        role, text = next((role, token[1]) for role, token in walked(line) if token[2] == place)
    except (Syntax, StopIteration, IndexError, KeyError):
        return None
    length = len(text) + 2
    if role == "operation":
        return "%s is no operation%s" % (word(text), meant(text, REDUCTIONS)), length
    if role == "label":
        return "a label has 1 to 64 letters", length
    if not text:
        return "a name is missing between the quotes", length
    if re.fullmatch(rb"\w{65,}", text):
        return "a name has at most 64 letters", length
    if re.search(rb"[^\w ]", text):
        return "a column's name is wanted here, and %s is an expression: Define it first" % word(text), length
    return "%s is no name: letters, digits and _, the first no digit" % word(text), length


# ---- tokens in a wrong order

def capitals(tokens, rest):
    """A line that begins as Print does, with another word."""
    near = nearest(tokens[0][1], KEPT_WORDS) if len(tokens) == 1 and rest[:1] in (b"(", b"") else None
    if near is None or near == tokens[0][1]:
        return None
    return "there is no %s; is %s meant?" % (word(tokens[0][1]), word(near)), tokens[0][2], len(tokens[0][1])


def at_token(line, place, tokens):
    token = re.match(rb'\w+|"[^"]*"|.?', line[place:])[0]
    rule = (before_call if len(tokens) < 6 or tokens[0][1] in KEPT_WORDS else in_call)
    return rule(token, tokens), max(1, len(token))


def before_call(token, tokens):
    """At NAME = NODE.Call( or at Print(NAME)."""
    texts = [text for _, text, _ in tokens]
    if tokens and texts[0] in KEPT_WORDS:
        return "the form is %s(NAME), with one name of a result and no quotes" % texts[0].decode()
    if not tokens:
        return LINE
    if len(tokens) == 1:
        if token == b".":
            return "what a line books has a name: NAME = %s.Call(..)" % texts[0].decode()
        if re.match(rb"\w", token):
            return "a line begins with the name of what it books, without a type: NAME = .."
        return LINE
    if len(tokens) == 2:
        return "a node stands behind =: df, or the name of a line above"
    if len(tokens) == 3:
        return "a call stands behind a node, as df.%s" % FORMS.get(texts[2], "Count()")
    if len(tokens) == 4:
        return unknown_call(token)
    return "( is missing behind %s: %s" % (word(texts[4]), FORMS[texts[4]]) if texts[4] in FORMS else LINE


def unknown_call(token):
    name = token.decode(errors="replace")
    if name in CALLS:
        return "%s isn't here: %s" % (name, CALLS[name])
    return "there is no call %s%s" % (word(token), meant(token, METHODS)) if token else LINE


def in_call(token, tokens):
    """Between the ( of a call and the end of the line."""
    method = tokens[4][1]
    form = "the form is " + FORMS.get(method, "Call(..)")
    depth = sum(text in (b"(", b"[") for sort, text, _ in tokens if sort == "mark")
    depth -= sum(text in (b")", b"]") for sort, text, _ in tokens if sort == "mark")
    last = tokens[-1]
    if depth == 0:
        if token == b".":
            return "one call a line: name this one, and call the next on that name"
        return "nothing but a comment stands behind a call"
    if token == b"":
        return "the line ends where %s is missing; %s" % ("]" if open_bracket(tokens) else ")", form)
    if token == b"." and last[0] == "integer":
        return "numbers are whole: scale by 10 or 1000, as 91200 MeV for 91.2 GeV"
    if method in (b"Histo1D", b"Histo2D") and len(tokens) == 6:
        return "the edges come first: " + form
    if token[:1] == b'"' and method in (b"Histo1D", b"Histo2D") and open_bracket(tokens):
        return "] is missing behind the edges; " + form
    if re.match(rb"[A-Za-z_]", token):
        return "names of columns, expressions and labels stand in double quotes; " + form
    if token == b"]" and last[1] == b",":
        return "behind the comma something is missing; " + form
    return form


def open_bracket(tokens):
    marks = [text for sort, text, _ in tokens if sort == "mark"]
    return marks.count(b"[") > marks.count(b"]")
