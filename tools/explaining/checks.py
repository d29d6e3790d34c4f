"""A line of a script that a check refuses: which name, column or number it is, and what may be meant."""
from booked import Booked
from booking import MOST, TAKEN, target
from elsewhere import FUNCTIONS
from expression_texts import LABEL_FIRST, label_first
from expressions import BUILT_IN, SHIPPED
from files import lines_of
from hint import Hint, counted, listed, meant, printable, word
from scripts import read_script, tokens_of
from spans import first_refused, placed
from syntax import walked
from values import Refusal

KINDS = {"int": "an int", "bool": "a truth value", "vect": "a vector"}
CALL_KINDS = {
    "Sum": "an int or a vector", "Min": "an int or a vector", "Max": "an int or a vector",
    "Take": "an int or a truth value", "Reduce": "an int",
    "Histo1D": "an int or a vector, and as weight an int, or a vector beside a vector",
    "Histo2D": "two ints or two vectors, and as weight an int, or a vector beside vectors",
}


class Refused:
    """The refused line with all that was booked before it."""

    def __init__(self, text, number, columns):
        self.text = lines_of(text)[number - 1]
        self.statements = read_script(text)
        self.number = number
        self.statement = next(s for s in self.statements if s["line"] == number)
        self.booking = Booked(columns)
        self.booked_at = {}
        for statement in self.statements:
            if statement["line"] >= number:
                break
            self.booking.book([statement])
            if "name" in statement:
                self.booked_at[statement["name"]] = statement["line"]
        self.tokens = tokens_of(self.text)
        self.strings = [token for token in self.tokens if token[0] == "string"]

    @property
    def node(self):
        return self.booking.nodes[self.statement["parent"]]

    def at_token(self, text, token):
        """The hint at a token; the quotes of a string are no part of what is meant."""
        place = token[2] + (token[0] == "string")
        return Hint(text, self.text, place, len(token[1]))

    def at_line(self, text):
        begin = self.tokens[0][2]
        return Hint(text, self.text, begin, self.tokens[-1][2] + len(self.tokens[-1][1]) - begin)

    def string_of(self, content):
        return next(token for token in self.strings if token[1] == content)

    def visible(self):
        """The columns that are visible at the node on which the line is called."""
        names = set(self.booking.table_columns)
        for above in self.node.upwards():
            if above.makes("Define", "Alias"):
                names.add(above.statement["column"])
        return names

    def kind(self, column):
        return self.booking.kind_at(self.node, column)


def explained(text, number, columns, cause):
    """The hint for a cause from S2 to S14 at a line; None where none is found."""
    refused = Refused(text, number, columns)
    return {
        "S2": name_taken, "S3": unknown_name, "S4": unknown_column, "S5": in_expressions,
        "S7": wrong_kind_of_column, "S8": wrong_count, "S10": alias_target, "S11": late,
        "S12": bad_edges, "S13": too_many, "S14": wrong_kind,
    }[cause](refused)


# ---- names

def name_taken(refused):
    statement, booking = refused.statement, refused.booking
    name = statement["name"]
    if name == b"df":
        return refused.at_token("df is the table; another name is wanted", refused.tokens[0])
    if name in booking.nodes or name in booking.results:
        return refused.at_token("the name %s is in use since line %d; another is wanted"
                                % (word(name), refused.booked_at[name]), refused.tokens[0])
    if statement["what"] in ("Define", "Alias"):
        column = statement["column"]
        if statement["what"] == "Define":
            more = "Redefine gives it another value, and another name makes a new one"
        else:
            more = "another name is wanted"
        return refused.at_token("there is a column %s already%s; %s" % (word(column), maker(refused, column), more),
                                refused.strings[0])
    for names, what in ((statement["columns"], "column"), (statement["tags"], "tag")):
        twice = next((n for place, n in enumerate(names) if n in names[:place]), None)
        if twice is not None:
            token = [t for t in refused.strings if t[1] == twice][-1]
            return refused.at_token("the %s %s stands twice" % (what, word(twice)), token)
    token = refused.strings[-1] if statement["variation"] == refused.strings[-1][1] else refused.strings[0]
    return refused.at_token("there is a variation %s already; a name behind the tags gives this one another"
                            % word(statement["variation"]), token)


def maker(refused, column):
    """Where a visible column comes from."""
    for above in refused.node.upwards():
        if above.makes("Define", "Alias") and above.statement["column"] == column:
            return ", made at line %d" % above.statement["line"]
    return " in the table"


def unknown_name(refused):
    statement, booking = refused.statement, refused.booking
    token = refused.tokens[2]
    name, shown = token[1], word(token[1])
    later = next((s["line"] for s in refused.statements if s["line"] > refused.number and s.get("name") == name), None)
    if "result" in statement:
        if name in booking.nodes:
            text = "%s is a node and no result; book one, as c = %s.Count()" % (shown, printable(name))
        elif later is not None:
            text = "%s is booked at line %d; this line belongs behind it" % (shown, later)
        else:
            text = "there is no result %s%s" % (shown, meant(name, booking.results))
    elif name in booking.results:
        text = "%s is a result and no node; calls stand behind df or the node of a Define, Filter, .." % shown
    elif later is not None:
        text = "%s is booked at line %d; this line belongs behind it" % (shown, later)
    else:
        text = "there is no node %s%s" % (shown, meant(name, booking.nodes))
    return refused.at_token(text, token)


def unknown_column(refused):
    if label_first(walked(refused.text)):
        return refused.at_token(LABEL_FIRST, refused.strings[0])
    statement = refused.statement
    if statement["what"] == "Alias":
        return refused.at_token(no_column(refused, statement["target"]), refused.strings[1])
    read = [statement["column"]] if statement["what"] == "Redefine" else statement.get("columns", [])
    for column in read:
        if refused.kind(column) is None:
            return refused.at_token(no_column(refused, column), refused.string_of(column))
    return in_expressions(refused)


def no_column(refused, name):
    elsewhere = [s for s in refused.statements if s["what"] in ("Define", "Alias") and s["column"] == name]
    if elsewhere:
        made = elsewhere[0]
        where = "at line %d" % made["line"]
        if made["line"] >= refused.number:
            return "the column %s is made %s; this line belongs behind it" % (word(name), where)
        return ("the column %s is made %s by %s, and %s doesn't stand below %s"
                % (word(name), where, word(made["name"]), word(refused.statement["parent"]),
                   word(made["name"])))
    if name in BUILT_IN or name in SHIPPED:
        return "%s is a function; its arguments stand in parentheses" % word(name)
    return "there is no column %s%s" % (word(name), meant(name, refused.visible()))


# ---- expressions

def in_expressions(refused):
    """The first part of the line's expressions that a check refuses."""
    for role, token in walked(refused.text):
        if role not in ("expression", "values"):
            continue
        reader, tree = placed(token[1], role)
        for single in trees_in(tree, role):
            found = first_refused(single, refused.kind, refused.booking.functions)
            if found is not None:
                return at_part(refused, token, reader, *found)
    return None


def trees_in(tree, role):
    if role == "expression":
        return [tree]
    form, values = tree
    return [values] if form == "vector" else [single for one in values for single in one]


def at_part(refused, token, reader, part, cause):
    place, length = reader.bytes_of(part)
    rule = {"S4": part_is_no_column, "S5": part_is_no_function, "S7": part_of_wrong_kind, "S8": part_of_wrong_count}
    text = rule[cause](refused, part)
    if cause in ("S5", "S8"):
        length = len(part[1])
    return Hint(text, refused.text, token[2] + 1 + place, length)


def part_is_no_column(refused, part):
    return no_column(refused, part[1])


def part_is_no_function(refused, part):
    name = part[1]
    if printable(name) in FUNCTIONS:
        return "there is no function %s; %s" % (word(name), FUNCTIONS[printable(name)])
    if refused.kind(name) is not None:
        return "%s is a column and no function; * multiplies, and v[i] takes an element" % word(name)
    names = list(BUILT_IN) + list(refused.booking.functions)
    near = meant(name, names)
    if not near:
        near = "; there are " + listed(word(n) for n in names)
    return "there is no function %s%s" % (word(name), near)


def part_of_wrong_count(refused, part):
    name, given = part[1], len(part[2])
    wanted = len(BUILT_IN[name][0]) if name in BUILT_IN else refused.booking.functions[name][0]
    text = "%s takes %s, and here are %d" % (word(name), counted(wanted, "argument"), given)
    if name in (b"Min", b"Max") and given == 2:
        text += "; the %s of two is a %s b ? a : b" % (("less", "<") if name == b"Min" else ("greater", ">"))
    return text


def part_of_wrong_kind(refused, part):
    kinds = [KINDS[refused.booking.kind_of(each, refused.node)] for each in parts(part)]
    form = part[0]
    if form == "call":
        wanted = BUILT_IN[part[1]][0] if part[1] in BUILT_IN else ["int"] * len(kinds)
        return "%s takes %s, and here is %s" % (word(part[1]), listed(KINDS[kind] for kind in wanted), listed(kinds))
    if form == "?":
        if kinds[0] != KINDS["bool"]:
            return "before ? stands a truth value, as x > 0, and here is %s" % kinds[0]
        return "both sides of : are of one kind, and here are %s and %s" % (kinds[1], kinds[2])
    if form == "[]":
        return "v[i] takes a vector and an int, and v[mask] two vectors; here are %s" % listed(kinds)
    if form in ("-", "!"):
        taken = "an int or a vector" if form == "-" else "a truth value or a vector"
        return "%s takes %s, and here is %s" % (form, taken, kinds[0])
    return wrong_operator(part[1], kinds, parts(part))


def wrong_operator(operator, kinds, sides):
    text = "%s joins " % operator
    if operator in ("&&", "||"):
        text += "two truth values or two vectors, and here are " + listed(kinds)
        if KINDS["int"] in kinds:
            text += "; compare the int, as x != 0"
        elif KINDS["vect"] in kinds:
            text += "; Any(v) and All(v) make a vector a truth value"
        return text
    text += "ints and vectors, and here are " + listed(kinds)
    if kinds[0] == KINDS["bool"] and sides[0][0] == "op" and sides[0][1] in ("<", "<=", ">", ">="):
        text += "; a < b && b < c compares twice"
    return text


def parts(tree):
    return tree[2] if tree[0] == "call" else [part for part in tree[1:] if isinstance(part, tuple)]


# ---- kinds and counts of a line

def wrong_kind_of_column(refused):
    found = in_expressions(refused)
    if found is not None:
        return found
    statement = refused.statement
    if statement["what"] == "action":
        return wrong_column_of_action(refused)
    token = next(token for role, token in walked(refused.text) if role in ("expression", "values"))
    if statement["what"] == "Filter":
        kind = refused.booking.kind_of(statement["expression"], refused.node)
        more = "Any(v) or Size(v) > 0, say" if kind == "vect" else "compare it, as x > 0"
        text = "a filter's expression is a truth value, and this is %s; %s" % (KINDS[kind], more)
        return refused.at_token(text, token)
    return wrong_values(refused, token)


def wrong_column_of_action(refused):
    kinds = ()
    for token, column in zip(refused.strings[-len(refused.statement["columns"]):], refused.statement["columns"]):
        kinds += (refused.kind(column),)
        if not any(taken[:len(kinds)] == kinds for taken in TAKEN[refused.statement["kind"]]):
            call = refused.statement["kind"]
            return refused.at_token("%s takes %s, and %s is %s%s" % (
                call, CALL_KINDS[call], word(column), KINDS[kinds[-1]], remedy(call, kinds)), token)
    return None


def remedy(call, kinds):
    if kinds[-1] == "vect" and call in ("Take", "Reduce"):
        return "; Define its Sum, Max, Size or an element"
    if kinds[-1] == "bool" and call != "Take":
        return "; Define it as c ? 1 : 0"
    if call == "Histo2D" and kinds[:2] == ("vect", "int"):
        return "; Define the number as a vector, as 0 * v + x"
    if call == "Histo2D" and kinds[:2] == ("int", "vect"):
        return "; Define the number as a vector, as 0 * v + x"
    return ""


def wrong_values(refused, token):
    """Of a Vary: values that aren't of the column's kind."""
    statement = refused.statement
    form, values = statement["values"]
    if form == "vector":
        kind = refused.booking.kind_of(values, refused.node)
        if kind != "vect":
            return refused.at_token("the values are a list in braces, as {x - 1, x + 1}, or one vector; this is %s"
                                    % KINDS[kind], token)
        column = statement["columns"][0]
        return refused.at_token("a vector gives the values of an int, and %s is %s; a list in braces is wanted"
                                % (word(column), KINDS[refused.kind(column)]), token)
    reader, tree = placed(token[1], "values")
    for column, trees in zip(statement["columns"], tree[1]):
        for single in trees:
            kind = refused.booking.kind_of(single, refused.node)
            if kind != refused.kind(column):
                place, length = reader.bytes_of(single)
                return Hint("%s is %s, and this value is %s" % (word(column), KINDS[refused.kind(column)], KINDS[kind]),
                            refused.text, token[2] + 1 + place, length)
    return None


def wrong_count(refused):
    statement = refused.statement
    if statement["what"] == "Vary":
        form, values = statement["values"]
        columns, tags = statement["columns"], statement["tags"]
        token = next(token for role, token in walked(refused.text) if role == "values")
        if form == "vector" and len(columns) != 1:
            return refused.at_token("one vector gives the values of one column, and here are %d; "
                                    "each has a list, as {{..}, {..}}" % len(columns), token)
        if form == "lists" and len(values) != len(columns):
            return refused.at_token("each column has a list of values: %s, and here are %s"
                                    % (counted(len(columns), "column"), counted(len(values), "list")), token)
        for column, trees in zip(columns, values if form == "lists" else []):
            if len(trees) != len(tags):
                return refused.at_token("each tag has a value: %s, and for %s here are %s" % (
                    counted(len(tags), "tag"), word(column), counted(len(trees), "value")), token)
    return in_expressions(refused)


# ---- the rest

def alias_target(refused):
    for column in refused.statement.get("columns", []) + [refused.statement.get("column")]:
        if column is not None and refused.kind(column) is not None and target(refused.node, column) != column:
            meaning = word(target(refused.node, column))
            return refused.at_token("%s is an alias of %s; %s itself can be changed, and the alias follows"
                                    % (word(column), meaning, meaning), refused.string_of(column))
    return None


def late(refused):
    name = refused.statement["result"]
    booking = Booked(refused.booking.table_columns)
    for statement in refused.statements:
        booking.book([statement])
        if name in booking.results and booking.results[name].filled:
            break
    what = refused.statement["what"]
    return refused.at_token("%s was filled by the Print at line %d, which fills all that is booked; "
                            "%s belongs before it" % (word(name), statement["line"], what), refused.tokens[2])


def bad_edges(refused):
    for edges, tokens in zip(refused.statement["edges"], edge_tokens(refused.tokens)):
        if len(edges) < 2:
            return refused.at_token("a bin has two edges, and here is one", tokens[0])
        for before, after in zip(tokens, tokens[1:]):
            if int(before[1]) >= int(after[1]):
                text = "edges must rise, and %s comes after %s" % (printable(after[1]), printable(before[1]))
                return refused.at_token(text, after)
    return None


def edge_tokens(tokens):
    found, inside = [], False
    for sort, text, place in tokens:
        if sort == "mark" and text in (b"[", b"]"):
            inside = text == b"["
            found += [[]] if inside else []
        elif inside and sort == "integer":
            found[-1].append((sort, text, place))
    return found


def too_many(refused):
    """The limit that a line passes, with the count."""
    booking, statement = refused.booking, refused.statement
    what = statement["what"]
    if what == "Vary":
        tags = len(statement["tags"])
        if tags > MOST["tags"]:
            return refused.at_line("a Vary has at most 16 tags, and this has %d" % tags)
        made = len(booking.variations) + tags
        return refused.at_line("a script has at most 128 variations, and these make %d" % made)
    if what == "Watch":
        return refused.at_line("at most 8 results are watched, and this is the 9th")
    if what in ("action", "Report") and len(booking.results) == MOST["results"]:
        return refused.at_line("a script has at most 64 results, and this is the 65th; "
                               "a second script over the table can have more")
    return refused.at_line(too_many_cells(booking, statement, what))


def too_many_cells(booking, statement, what):
    try:
        booking.book([statement])
    except Refusal:
        pass
    if what == "Print":
        if booking.printed_cells > MOST["cells"]:
            return "at most 1048576 cells of histograms are printed, and these make %d" % booking.printed_cells
        return "at most 16 lines of Takes are printed, and these make %d" % booking.printed_takes
    cells = sum(booking.cells(result) for result in booking.results.values())
    if cells > MOST["cells"]:
        return "at most 1048576 cells of histograms are kept, over all variations, and these make %d" % cells
    takes = sum(booking.takes(result) for result in booking.results.values())
    return "at most 16 Takes are kept, each variation counted, and these make %d" % takes


def wrong_kind(refused):
    if refused.statement["what"] == "Watch":
        return refused.at_token("Count, Sum, Min and Max can be watched, and %s is a %s" % (
            word(refused.tokens[2][1]), refused.booking.results[refused.statement["result"]].kind), refused.tokens[2])
    return refused.at_token("a Report is nominal and has no variations", refused.tokens[2])
