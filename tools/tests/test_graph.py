"""The graph of a script: what stands in it, and what Graphviz makes of it."""

from __future__ import annotations

import contextlib
import io
import re
import shutil
import tempfile
import unittest
from pathlib import Path

from rdfgraph import booked, cli, dot

TOP = Path(__file__).resolve().parent.parent.parent
SCRIPT = b"""\
v = df.Vary(["pt", "met"], "{{pt - 1, pt + 1}, {met, met}}", ["down", "up"], "jes")
w = v.Vary("w", "{w * 2}", ["twice"], "pu")
d = w.Define("twice_pt", "2 * pt")
a = d.Alias("p", "twice_pt")
f = a.Filter("p > 3 && met < 9", "hard & <soft>")
g = f.Filter("other == 1")
h = g.Histo1D([0, 1], "p", "w")
n = df.Count()
late = g.Max("p")
VariationsFor(h)
Watch(n)
Print(n)
r = f.Report()
Print(h)
Print(r)
x = df.Reduce("xor", "other")
"""


def run(*words: str) -> tuple[int, str, str]:
    out, err = io.StringIO(), io.StringIO()
    with contextlib.redirect_stdout(out), contextlib.redirect_stderr(err):
        try:
            status = cli.main(list(words))
        except SystemExit as ended:
            status = int(ended.code or 0)
    return status, out.getvalue(), err.getvalue()


class Booked(unittest.TestCase):
    GRAPH = booked.read(SCRIPT, None)

    def test_nodes(self) -> None:
        found = [(n.name, n.parent, n.method, n.title, n.variations) for n in self.GRAPH.nodes]
        self.assertEqual(found, [
            ("v", "df", "Vary", "jes", ("jes",)),
            ("w", "v", "Vary", "pu", ("pu",)),
            ("d", "w", "Define", "twice_pt", ("jes",)),
            ("a", "d", "Alias", "p", ("jes",)),
            ("f", "a", "Filter", "hard & <soft>", ("jes",)),
            ("g", "f", "Filter", "", ()),
        ])  # fmt: skip
        self.assertEqual(self.GRAPH.nodes[0].texts, ("pt, met as down, up", "{{pt - 1, pt + 1}, {met, met}}"))
        self.assertEqual(self.GRAPH.nodes[4].texts, ("p > 3 && met < 9",))

    def test_results_by_loop(self) -> None:
        found = [(printed, [result.name for result in results]) for printed, results in self.GRAPH.loops]
        self.assertEqual(found, [("n", ["h", "n", "late"]), ("r", ["r"])])
        self.assertEqual([result.name for result in self.GRAPH.unfilled], ["x"])

    def test_what_is_said_of_results(self) -> None:
        results = {r.name: r for _, each in self.GRAPH.loops for r in each}
        self.assertEqual((results["h"].variations, results["h"].passes), (("jes", "pu"), 4))
        self.assertEqual((results["late"].variations, results["late"].passes), (("jes",), 1))
        self.assertEqual((results["late"].printed, results["n"].watched, results["h"].watched), (False, True, False))
        self.assertEqual((results["r"].title, self.GRAPH.unfilled[0].title), ("1 named filter", "xor, other"))

    def test_a_table_is_checked(self) -> None:
        header = b'\xef\xbb\xbf\n"pt:int",met:int,w:int,other:int,block:cut\r\n1,2,3,4,1\r\n'
        self.assertEqual(booked.read(SCRIPT, header), self.GRAPH)
        for table, line in (
            (b"pt:int,met:int,w:int\n", "script refused at line 6: S4 UnknownColumn"),
            (b"pt:float\n", "table refused at header field 0: B1 Header"),
            (b"", "table refused at header field 0: B1 Header"),
        ):
            with self.assertRaisesRegex(booked.Refused, re.escape(line)):
                booked.read(SCRIPT, table)

    def test_names_are_checked_without_a_table(self) -> None:
        for script, line in (
            (b"a = b.Count()\n", "script refused at line 1: S3 UnknownName"),
            (b"a = df.Count()\na = df.Count()\n", "script refused at line 2: S2 NameTaken"),
            (b"Print(a)\n", "script refused at line 1: S3 UnknownName"),
            (b"a = df.Cuont()\n", "script refused at line 1 place 7: S1 Syntax"),
        ):
            with self.assertRaisesRegex(booked.Refused, re.escape(line)):
                booked.read(script, None)


    def test_deep_scripts(self) -> None:
        """Each Define names the two before it; and an expression of many parentheses."""
        lines = ['a = df.Define("c0", "x")', 'b = a.Define("c1", "c0 + x")']
        lines += ['n2 = b.Define("c2", "c1 + c0")']
        lines += [f'n{i} = n{i - 1}.Define("c{i}", "c{i - 1} + c{i - 2}")' for i in range(3, 250)]
        lines += ['h = n249.Sum("c249")', f'k = df.Filter("{"(" * 120}x > 1{")" * 120}")', "Print(h)"]
        script = "\n".join(lines).encode()
        for table in (None, b"x:int\n"):
            self.assertEqual(len(booked.read(script, table).nodes), 251)


class Dot(unittest.TestCase):
    def test_edges_boxes_and_texts(self) -> None:
        text = dot.text(booked.read(SCRIPT, None), "muons.csv")
        edges = re.findall(r'^  "(\w+)" -> "(\w+)";$', text, re.M)
        self.assertEqual(set(edges), {
            ("df", "v"), ("v", "w"), ("w", "d"), ("d", "a"), ("a", "f"), ("f", "g"),
            ("g", "h"), ("df", "n"), ("g", "late"), ("f", "r"), ("df", "x"),
        })  # fmt: skip
        self.assertEqual(len(edges), 11)
        boxes = re.findall(r'label="([^"]*)"; labelloc', text)
        self.assertEqual(len(boxes), 3)
        self.assertEqual(boxes[:2], ["loop 1, run by Print(n)", "loop 2, run by Print(r)"])
        self.assertIn("<B>hard &amp; &lt;soft&gt;</B>", text)

    @unittest.skipUnless(shutil.which("dot"), "no Graphviz")
    def test_pictures(self) -> None:
        with tempfile.TemporaryDirectory() as place:
            (Path(place) / "s.txt").write_bytes(SCRIPT)
            for form, first in (("png", b"\x89PNG"), ("pdf", b"%PDF"), ("svg", b"<?xml"), ("dot", b"digraph")):
                out = Path(place) / f"g.{form}"
                self.assertEqual(run(str(Path(place) / "s.txt"), "--out", str(out)), (0, "", ""))
                self.assertTrue(out.read_bytes().startswith(first))
            svg = (Path(place) / "g.svg").read_text()
            self.assertEqual(svg.count('class="node"'), 12)
            self.assertEqual(svg.count('class="edge"'), 11)
            self.assertEqual(svg.count('class="cluster"'), 3)


class Command(unittest.TestCase):
    def test_examples(self) -> None:
        for script in sorted((TOP / "examples").glob("*.txt")):
            status, out, err = run(str(script), str(script.with_suffix(".csv")))
            self.assertEqual((status, err), (0, ""))
            self.assertTrue(out.startswith("digraph script {\n"))

    def test_statuses(self) -> None:
        with tempfile.TemporaryDirectory() as place:
            script = Path(place) / "s.txt"
            script.write_text("a = b.Count()\n")
            self.assertEqual(run(str(script)), (1, "", "script refused at line 1: S3 UnknownName\n"))
            self.assertEqual(run(str(script), "--out", "g.jpg")[0], 2)
            self.assertEqual(run(str(script) + "x")[0], 3)
            self.assertEqual(run()[0], 2)


if __name__ == "__main__":
    unittest.main()
