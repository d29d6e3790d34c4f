"""The words of rdf_snapshot, and a whole run of it."""
from booking import Booking
from commands import Words, file_of
from expressions import SHIPPED
from passes import Analysis
from scripts import read_script
from snapshots import check_plan, snapshot_rows, snapshot_text
from tables import MOST_COLUMNS, read_table
from values import Refusal, is_name

USAGE = b"usage: rdf_snapshot SCRIPT TABLE NODE COLUMNS UNDER [--slots N] [--cluster N]"


class SnapshotWords(Words):
    """SCRIPT, TABLE, NODE, COLUMNS and UNDER, which is None for nominal."""

    def __init__(self, words):
        super().__init__(words, USAGE, (b"slots", b"cluster"))
        for name in (b"slots", b"cluster"):
            self.number(name)
        if len(self.named) != 5:
            self.refuse()
        self.script, self.table, self.node, columns, under = self.named
        self.columns = columns.split(b",")
        self.under = None if under == b"nominal" else tuple(under.split(b":"))
        names = [self.node] + self.columns + list(self.under or ())
        if len(self.columns) > MOST_COLUMNS or not all(map(is_name, names)):
            self.refuse()
        if self.under is not None and len(self.under) != 2:
            self.refuse()


def written(words, shelf):
    asked = SnapshotWords(words)
    statements = read_script(file_of(shelf, asked.script))
    table = read_table(file_of(shelf, asked.table))
    booking = Booking(table.columns, SHIPPED).book(statements)
    check_plan(booking, statements, asked.node, asked.columns, asked.under)
    rows = snapshot_rows(Analysis(booking, table), asked.node, asked.columns, asked.under)
    return snapshot_text(booking, asked.node, asked.columns, rows)


def run(words, shelf):
    """The status and the bytes that the words call for."""
    try:
        return 0, written(words, shelf)
    except Refusal as refusal:
        return refusal.status, refusal.line + b"\n"
