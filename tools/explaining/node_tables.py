"""A snapshot that isn't written: of which node, columns and variation it can be."""
from booked import Booked
from files import contents
from hint import Hint, counted, listed, meant, printable, word
from scripts import read_script
from snapshots import HEADER_WORDS, MOST_STATEMENTS, NODE_STATEMENTS
from table_files import TableFile
from tables import read_header


class Asked:
    """What a snapshot was asked to hold, with the script booked over the table's columns."""

    def __init__(self, words):
        self.words = words
        self.statements = read_script(contents(words.script))
        header = read_header([name for name, _, _ in TableFile(contents(words.table)).header])
        self.booking = Booked([column for column in header if column[1] != "cut"]).book(self.statements)

    def visible(self):
        """The columns that a table can have, of those that are seen at the node."""
        node = self.booking.nodes[self.words.node]
        made = [s["column"] for s in self.statements if s["what"] in ("Define", "Alias")]
        return [name for name in [*self.booking.table_columns, *made]
                if self.booking.kind_at(node, name) in HEADER_WORDS]


def no_node(words, said):
    booking = Asked(words).booking
    if words.node in booking.results:
        return Hint("NODE: %s is a result and no node" % word(words.node)), None
    return Hint("NODE: %s books no node %s%s" % (
        word(words.script.encode()), word(words.node), meant(words.node, booking.nodes))), None


def no_column(words, said):
    asked = Asked(words)
    name, node = said.name, asked.booking.nodes[words.node]
    kind = asked.booking.kind_at(node, name)
    made = next((s for s in asked.statements if s["what"] in ("Define", "Alias") and s["column"] == name), None)
    if kind == "bool":
        text = "%s is a truth value, and a table has ints and vectors: Define %s ? 1 : 0" % (word(name), printable(name))
    elif kind is not None:
        text = "%s stands twice" % word(name)
    elif made is not None:
        text = "the column %s is made at line %d by %s, and %s doesn't stand below %s" % (
            word(name), made["line"], word(made["name"]), word(words.node), word(made["name"]))
    else:
        text = "there is no column %s at %s%s" % (word(name), word(words.node), meant(name, asked.visible()))
    return Hint("COLUMNS: " + text), None


def no_variation(words, said):
    variations = [b"%s:%s" % each for each in Asked(words).booking.variations]
    if not variations:
        return Hint("UNDER: the script has no Vary; nominal takes the values as they are"), None
    tags = [tag for name, tag in Asked(words).booking.variations if name == words.under[0]]
    if tags:
        return Hint("UNDER: the variation %s has the tag%s %s" % (
            word(words.under[0]), "" if len(tags) == 1 else "s", listed(map(word, tags)))), None
    return Hint("UNDER: there is no such variation%s" % meant(b"%s:%s" % words.under, variations)), None


def too_many(words, said):
    nodes = sum(s["what"] in NODE_STATEMENTS for s in Asked(words).statements)
    return Hint("COLUMNS: the script has %s that make nodes and here are %s; twice the columns and one more, these "
                "must be at most %d" % (counted(nodes, "statement"), counted(len(words.columns), "column"),
                                        MOST_STATEMENTS)), None


RULES = {"node": no_node, "column": no_column, "variation": no_variation, "columns": too_many}
