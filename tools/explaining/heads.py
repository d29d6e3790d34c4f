"""The first lines of a file that rdf_shard or rdf_chain wrote, up to its loops."""
from hint import printable
from part_texts import PartReader
from shard_texts import Broken, ShardReader

READERS = {b"rdfshard": ShardReader, b"rdfpart": PartReader}
MOST_LINES = 70                         # of columns there are at most 64


def head_of(name):
    """What stands there, as the reference's Shard or Part; None where that doesn't read."""
    with open(name, "rb") as file:
        first = file.readline(200)
        make = READERS.get(first.split(b" ")[0])
        if make is None:
            return None
        reader, line = make(), first
        try:
            for _ in range(MOST_LINES):
                if line in (b"loop\n", b"end\n"):
                    return reader.found
                reader.take(line.rstrip(b"\n"))
                line = file.readline(200)
        except Broken:
            pass
    return None


def column_text(column):
    name, kind = column
    return "'%s:%s'" % (printable(name), "int" if kind == "int" else "vec")


def first_other_column(ours, theirs, other):
    """How the columns of a file differ from those of another."""
    for place, (one, two) in enumerate(zip(ours, theirs)):
        if one != two:
            return "column %d is %s here and %s in %s" % (place, column_text(one), column_text(two), other)
    return "it has %d column%s, and %s has %d" % (len(ours), "" if len(ours) == 1 else "s", other, len(theirs))
