"""What the words of rdf_snapshot, rdf_shard and rdf_chain name, of words that they take."""
import os

from files import Words, parted


class SnapshotWords:
    """A script and a table, and of what a snapshot is taken: a node, columns, and a variation or None."""

    program = "rdf_snapshot"
    what = "TABLE"
    friend = None

    def __init__(self, words):
        (self.script, self.table, node, columns, under), _ = parted(words)
        self.node, self.columns = node.encode(), columns.encode().split(b",")
        self.under = None if under == "nominal" else tuple(under.encode().split(b":"))

    def files(self):
        return [self.script, self.table]

    def which(self, name):
        return "SCRIPT" if name == self.script else "TABLE"

    def of_script_alone(self, script):
        return ["--", script, os.devnull, "df", "x", "nominal"]


class FilesWords:
    """A command, a script, and tables or files that an earlier run wrote."""

    friend = None

    def files(self):
        return [self.script] + self.names

    def which(self, name):
        return "SCRIPT" if name == self.script else self.what

    @property
    def reads_tables(self):
        return self.what == "TABLE"

    @property
    def table(self):
        """The table whose columns the script is checked over, or None where they stand in a file."""
        return self.names[0] if self.reads_tables else None


class ShardWords(FilesWords):
    program = "rdf_shard"

    def __init__(self, words):
        self.command, self.script, *self.names = words
        self.what = "TABLE" if self.command == "run" else "FILE"
        if self.command == "run":
            self.size, self.low, self.high = map(int, self.names[1:])
            del self.names[1:]

    def of_script_alone(self, script):
        return [self.command, script, os.devnull] + (["1", "0", "0"] if self.command == "run" else [])


class ChainWords(FilesWords):
    program = "rdf_chain"

    def __init__(self, words):
        self.command, *rest = words
        (self.script, *self.names), _ = parted(rest)
        self.what = "TABLE" if self.command in ("run", "map") else "PART"
        self.number = int(self.names.pop(0)) if self.command in ("map", "print") else None

    def of_script_alone(self, script):
        return [self.command, "--", script] + (["1"] if self.number is not None else []) + [os.devnull]


WORDS = {each.program: each for each in (Words, SnapshotWords, ShardWords, ChainWords)}
