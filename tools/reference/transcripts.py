"""The lines of a run: results, partial results, faults."""
from passes import Analysis
from values import FAULT_NAMES
from tables import clusters_of

MOST_PARTIALS = 1000


def number(value):
    if value is None:
        return b"none"
    if isinstance(value, bool):
        return b"true" if value else b"false"
    return b"%d" % value


def label(result, variation):
    return result.name if variation is None else b"%s[%s:%s]" % (result.name, *variation)


def cell_names(edges):
    inner = [b"[%d,%d)" % pair for pair in zip(edges, edges[1:])]
    return [b"under"] + inner + [b"over"]


def result_lines(name, result, value):
    if result.kind == "Take":
        return [b"%s = %s" % (name, b" ".join(number(v) for v in value) or b"none")]
    if not result.kind.startswith("Histo"):
        return [b"%s = %s" % (name, number(value))]
    axes = [cell_names(edges) for edges in result.statement["edges"]]
    sizes = b" ".join(b"%d" % len(axis) for axis in axes)
    lines = [b"%s = histo%dd %s" % (name, len(axes), sizes)]
    cells = [((i,), x) for i, x in enumerate(axes[0])]
    for axis in axes[1:]:
        cells = [(at + (j,), x + b" " + y) for at, x in cells for j, y in enumerate(axis)]
    return lines + [b"  %s %d %d" % (x, *value.get(at, (0, 0))) for at, x in cells]


def percent(part, whole):
    if whole == 0:
        return b"none"
    hundredths = part * 10000 // whole
    return b"%d.%02d" % (hundredths // 100, hundredths % 100)


def report_lines(result, flows):
    if not flows:
        return [b"%s: no named filters" % result.name]
    first = flows[0][1]
    return [b"%s: %s pass=%d all=%d eff=%s cumulative=%s"
            % (result.name, name, passed, reached, percent(passed, reached), percent(passed, first))
            for name, reached, passed in flows]


def runs_text(clusters):
    """The maximal runs of some rising numbers."""
    runs = []
    for cluster in clusters:
        if runs and runs[-1][1] == cluster - 1:
            runs[-1][1] = cluster
        else:
            runs.append([cluster, cluster])
    return b",".join(b"%d" % low if low == high else b"%d-%d" % (low, high) for low, high in runs)


def stride(clusters, watch):
    return max(watch, -(-clusters // MOST_PARTIALS))


class Run:
    """A booked script over a table, its clusters of so many entries."""

    def __init__(self, booking, table, size, watch):
        self.booking = booking
        self.analysis = Analysis(booking, table)
        self.rows = table.rows
        self.clusters = clusters_of(len(table.rows), size, table.marks)
        self.watch = watch

    def partial_line(self, result, clusters):
        """The line of a partial result over some clusters."""
        rows = [row for c in clusters for row in self.rows[slice(*self.clusters[c])]]
        value = self.analysis.result_of(result, None, rows)
        return b"partial %s over %s = %s" % (result.name, runs_text(clusters), number(value))

    def partial_lines(self, result):
        """Those of one slot, which finishes the clusters in file order."""
        step = stride(len(self.clusters), self.watch)
        return [self.partial_line(result, range(below))
                for below in range(step, len(self.clusters) + 1, step)]

    def lines_of(self, result):
        lines = self.partial_lines(result) if result.watched else []
        if result.kind == "Report":
            flows = [(f.statement["label"], *self.analysis.cutflow(f)) for f in result.covered]
            return lines + report_lines(result, flows)
        for variation in self.booking.passes(result):
            value = self.analysis.result_of(result, variation, self.rows)
            lines += result_lines(label(result, variation), result, value)
        return lines

    def place_of(self, entry):
        return b"at entry %d" % entry

    def transcript(self):
        """The status and the lines of the Prints in order."""
        lines = []
        for printed, waiting in self.booking.prints:
            passes = [(r, variation) for r in waiting for variation in self.booking.passes(r)]
            fault = self.analysis.first_fault(passes)
            if fault is not None:
                entry, place, kind = fault
                text = (kind + " " + FAULT_NAMES[kind]).encode()
                return 8, lines + [b"fault %s in %s: %s" % (self.place_of(entry), label(*passes[place]), text)]
            lines += self.lines_of(printed)
        return 0, lines
