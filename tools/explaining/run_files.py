"""Files that rdf_shard and rdf_chain write and read, and tables of a chain: which of them don't fit, and why."""
import os

from files import contents, lines_of, swapped
from heads import first_other_column, head_of
from hint import Hint, counted, listed, word
from part_texts import script_hash
from snapshots import MOST_BYTES as MOST_OF_TABLE
from table_files import TableFile
from tables import clusters_of, read_header, read_table

WRITERS = {"rdf_shard": "./rdf shard run", "rdf_chain": "./rdf chain map"}
BEGINNINGS = [(b"rdfshard ", "rdf_shard", "a file of ./rdf shard run, and ./rdf shard merge takes it"),
              (b"rdfpart ", "rdf_chain", "a part of ./rdf chain map, and ./rdf chain join and print take it")]


def shown(name):
    return word(os.fsencode(name))


def columns_of(words):
    return head_of(words.names[0]).columns


def of_fault(words, said):
    """A fault that stands in a file: the table isn't named here."""
    if words.program == "rdf_chain":
        return Hint("file %d is the table of ./rdf chain map %s %d; ./rdf %s over it says what faults" % (
            said.number, words.script, said.number, words.script)), None
    return Hint("./rdf %s over the whole table says what faults, with the values at the entry" % words.script), None


def too_long(words, said):
    if said.name == b"snapshot":
        text = "a table has at most %d bytes; fewer columns, or a filter that keeps less, make a smaller one" % MOST_OF_TABLE
    elif said.name == b"part":
        text = "a Take makes it as long as the data; a histogram, or fewer Takes, keep it short"
    elif words.reads_tables:
        text = "a span of fewer clusters makes a shorter file; a Take makes it as long as the data"
    else:
        sizes = [os.path.getsize(name) for name in words.names]
        text = "they have %d bytes; a Take makes them as long as the data" % sum(sizes)
    return Hint(text), None


def no_span(words, said):
    if words.low > words.high:
        return Hint("LO %d is above HI %d" % (words.low, words.high)), None
    table = read_table(contents(words.table))
    count = len(clusters_of(len(table.rows), words.size, table.marks))
    return Hint("with SIZE %d the table has %s, so HI is at most %d" % (words.size, counted(count, "cluster"), count)), None


def refused(words, said):
    """A file that doesn't read: what it looks like, or the line at which it breaks."""
    name = said.name.decode()
    text = contents(name)
    for beginning, program, what in BEGINNINGS:
        if text.startswith(beginning) and program != words.program:
            return Hint("it is " + what), name
    if not text:
        return Hint("it is empty; was it written whole?"), name
    if swapped(text):
        return Hint("it looks like a table; %s makes a file of one" % WRITERS[words.program]), name
    lines = lines_of(text)
    if said.line >= len(lines):
        return Hint("it ends too early: the last line is 'end'; was it written whole?"), name
    line = lines[said.line - 1]
    return Hint("such a line isn't of %s; was the file changed?" % WRITERS[words.program],
                line[:200], 0, max(1, min(len(line), 200))), "%s, line %d" % (name, said.line)


def differs(words, said):
    name, other = said.name.decode(), words.names[0]
    if words.reads_tables:
        ours, theirs = [[column for column in read_header([field for field, _, _ in TableFile(contents(each)).header])
                         if column[1] != "cut"] for each in (name, other)]
        return Hint(first_other_column(ours, theirs, shown(other))), name
    ours, theirs = head_of(name), head_of(other)
    if words.program == "rdf_chain" and ours.script != script_hash(contents(words.script)):
        text = "it was written with another script than %s; each letter of a script counts" % shown(words.script)
    elif ours.columns != theirs.columns:
        text = first_other_column(ours.columns, theirs.columns, shown(other))
    elif words.program == "rdf_shard" and ours.head() != theirs.head():
        text = "it is of a table of %s in %s, and %s of %s in %s; all runs take one table and one SIZE" % (
            counted_head(ours) + (shown(other),) + counted_head(theirs))
    else:
        text = "what it holds isn't what %s books; was it written with another script?" % shown(words.script)
    return Hint(text), name


def counted_head(head):
    entries = "%d entr%s" % (head.entries, "y" if head.entries == 1 else "ies")
    return entries, counted(head.clusters, "cluster")


def not_covered(words, said):
    """Which files have a cluster, or a file of a chain, and which ones those that are named have."""
    unit, holder = ("cluster", "file") if words.program == "rdf_shard" else ("file", "part")
    spans = [(name, span_of(head_of(name))) for name in words.names]
    having = [shown(name) for name, (low, high) in spans if low <= said.number < high]
    if having:
        text = "%s %d stands in %s" % (unit, said.number, listed(having[:6]))
        if len(having) == 1:
            text += ", and COUNT is %d" % words.number
    else:
        text = "no %s has %s %d; %s" % (holder, unit, said.number, listed(told_span(*each) for each in spans[:6]))
        text += ", .." if len(spans) > 6 else ""
    return Hint(text), None


def span_of(head):
    return (head.low, head.high) if hasattr(head, "low") else (head.first, head.last)


def told_span(name, span):
    low, high = span
    if low == high:
        return "%s has none" % shown(name)
    if high - low == 1:
        return "%s has %d" % (shown(name), low)
    return "%s has %d to %d" % (shown(name), low, high - 1)


RULES = {"long": too_long, "span": no_span, "file": refused, "differs": differs, "covered": not_covered}
