"""The hint for what a program said, from its files."""
import checks
import expression_texts
import faults
import files
import friends
import node_tables
import run_files
import syntax
import table_files
from files import contents
from hint import Hint
from scripts import MOST_BYTES, MOST_STATEMENTS
from tables import read_header
from values import integer


def for_line(words, said):
    """The lines for a refusal or a fault of a loop; none where nothing is known."""
    hint, place = RULES[said.what](words, said)
    return hint.lines(place + ": " if place else "") if hint else []


def at(name, line):
    """A place in a file, or a whole file."""
    return "%s, line %d" % (name, line) if line else name


def of_script(words, said):
    hint, line = script_explained(words, said)
    return hint, at(words.script, line)


def script_explained(words, said):
    """The hint for a refused script, and the number of its line."""
    script = contents(words.script)
    whole = table_files.packed(script)
    if files.swapped(script):
        whole = "it looks like a table; SCRIPT comes first, and %s behind it" % words.what
    elif said.cause is None:
        whole = "it has %d bytes, and a script has at most %d" % (len(script), MOST_BYTES)
    if whole is not None:
        return Hint(whole), None
    line = files.lines_of(script)[said.line - 1]
    if said.cause == "S1":
        return syntax.explained(line, said.place), said.line
    if said.cause.startswith("E"):
        return expression_texts.explained(line, said.place, said.cause), said.line
    statements = files.statements_in(script)
    if statements > MOST_STATEMENTS:
        text = "a script has at most %d statements, and this has %d" % (MOST_STATEMENTS, statements)
        return Hint(text, line, 0, len(line)), said.line
    return checks.explained(script, said.line, columns_of(words), said.cause), said.line


def columns_of(words):
    """The columns over which the script is checked."""
    if words.table is None:
        return run_files.columns_of(words)
    header = read_header([name for name, _, _ in table_files.TableFile(contents(words.table)).header])
    columns = [column for column in header if column[1] != "cut"]
    return columns + friend_of(words).added() if words.friend is not None else columns


def of_table(words, said):
    name = words.table if said.name is None else said.name.decode()
    hint, line = table_files.explained(contents(name), said)
    return hint, at(name, line)


def friend_of(words):
    return friends.Friend(contents(words.friend), words.options["key"].encode(),
                          integer(words.options.get("missing", "0").encode()))


def of_friend(words, said):
    if said.cause is None or said.cause.startswith("B"):
        hint, line = table_files.explained(contents(words.friend), said)
    else:
        hint, line = friends.explained(table_files.TableFile(contents(words.table)), friend_of(words), said)
    return hint, at(words.friend, line)


def of_fault(words, said):
    if words.table is None:
        return run_files.of_fault(words, said)
    script = contents(words.script)
    if words.program == "rdf_snapshot":
        hint, line = faults.explained_of_node(script, table_files.TableFile(contents(words.table)), said, words)
    elif said.number is not None:
        name = words.names[said.number]
        hint, line = faults.explained(script, table_files.TableFile(contents(name), name), said)
    else:
        friend = friend_of(words) if words.friend is not None else None
        hint, line = faults.explained(script, table_files.TableFile(contents(words.table)), said, friend)
    return hint, at(words.script, line)


RULES = {"script": of_script, "table": of_table, "friend": of_friend, "fault": of_fault,
         **node_tables.RULES, **run_files.RULES}


def for_status(words, status):
    """The lines for an end that no line of the program's tells of, or only in part."""
    if status == 1:
        return ["rdf: memory ran out, and nothing was written; fewer slots want less"]
    rule = {0: files.nothing_printed, 3: files.unreadable, 4: files.unwritten, 5: files.missing}
    hint = rule[status](words)
    return hint.lines("") if hint else []
