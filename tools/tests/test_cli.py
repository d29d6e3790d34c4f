"""The command: its words, statuses, lines and files."""

from __future__ import annotations

import contextlib
import io
import json
import re
import subprocess
import sys
import tempfile
import unittest
from pathlib import Path
from typing import Any
from unittest import mock

from . import needs_matplotlib

needs_matplotlib()

from rdfplot import cli  # noqa: E402
from rdfplot.charts import Look  # noqa: E402
from rdfplot.quantities import Quantity  # noqa: E402

from . import rows  # noqa: E402

TOOLS = Path(__file__).resolve().parent.parent
PROGRAM = TOOLS / "rdf_plot"
MUONS = TOOLS / "tests" / "muons.txt"
PNG = b"\x89PNG\r\n\x1a\n"
PDF = b"%PDF-1."


def pages(file: Path) -> int:
    return len(re.findall(rb"/Type /Page\b(?!s)", file.read_bytes()))


class Case(unittest.TestCase):
    def setUp(self) -> None:
        place = tempfile.TemporaryDirectory()
        self.addCleanup(place.cleanup)
        self.dir = Path(place.name)

    def run_words(self, text: str, *words: str) -> tuple[int, str, str]:
        """Runs the command on the text: status, standard output, standard error."""
        source = self.dir / "input.txt"
        source.write_bytes(text.encode())
        out, err = io.StringIO(), io.StringIO()
        with contextlib.redirect_stdout(out), contextlib.redirect_stderr(err):
            try:
                status = cli.main([str(source), *words])
            except SystemExit as ended:
                status = int(ended.code or 0)
        return status, out.getvalue(), err.getvalue()

    def files(self) -> list[str]:
        return sorted(
            str(f.relative_to(self.dir)) for f in self.dir.rglob("*") if f.is_file() and f.name != "input.txt"
        )

    def at(self, name: str) -> str:
        return str(self.dir / name)


class Files(Case):
    def test_a_file_for_each_result(self) -> None:
        text = rows.COUNT + rows.VARIED + rows.MAP.replace("h =", "m =") + rows.REPORT + rows.TAKE
        self.assertEqual(self.run_words(text, "--out-dir", self.at("new/pictures")), (0, "", ""))
        self.assertEqual(self.files(), [f"new/pictures/{name}.png" for name in ("h", "m", "r")])
        for file in self.files():
            self.assertTrue((self.dir / file).read_bytes().startswith(PNG))

    def test_files_as_pdf(self) -> None:
        self.assertEqual(self.run_words(rows.REPORT, "--out-dir", str(self.dir), "--format", "pdf"), (0, "", ""))
        self.assertEqual(self.files(), ["r.pdf"])
        self.assertTrue((self.dir / "r.pdf").read_bytes().startswith(PDF))

    def test_all_in_one_pdf(self) -> None:
        text = rows.VARIED + rows.MAP.replace("h =", "m =") + rows.REPORT + rows.NO_FILTERS.replace("r:", "q:")
        self.assertEqual(self.run_words(text, "--out", self.at("all.pdf")), (0, "", ""))
        self.assertEqual(self.files(), ["all.pdf"])
        self.assertTrue((self.dir / "all.pdf").read_bytes().startswith(PDF))
        self.assertEqual(pages(self.dir / "all.pdf"), 3)

    def test_dots_to_the_inch(self) -> None:
        wide = []
        for dots in ("50", "100"):
            self.assertEqual(self.run_words(rows.REPORT, "--out", self.at("r.png"), "--dpi", dots), (0, "", ""))
            wide.append(int.from_bytes((self.dir / "r.png").read_bytes()[16:20], "big"))
        self.assertAlmostEqual(wide[1], 2 * wide[0], delta=2)
        for dots in ("29", "601", "1.5", "-1"):
            self.assertEqual(self.run_words(rows.REPORT, "--out", self.at("r.png"), "--dpi", dots)[0], 2)

    def test_one_png(self) -> None:
        self.assertEqual(self.run_words(rows.REPORT, "--out", self.at("r.PNG")), (0, "", ""))
        self.assertTrue((self.dir / "r.PNG").read_bytes().startswith(PNG))

    def test_several_pictures_in_one_png(self) -> None:
        status, _, err = self.run_words(rows.REPORT + rows.VARIED, "--out", self.at("r.png"))
        self.assertEqual((status, self.files()), (2, []))
        self.assertIn("2 pictures don't fit", err)

    def test_only(self) -> None:
        words = ("--out", self.at("h.png"), "--only", "h")
        self.assertEqual(self.run_words(rows.REPORT + rows.VARIED, *words), (0, "", ""))

    def test_take_on_request(self) -> None:
        text = rows.TAKE + rows.TRUTHS
        self.assertEqual(self.run_words(text, "--out-dir", str(self.dir), "--take", "t", "--take", "b")[0], 0)
        self.assertEqual(self.files(), ["b.png", "t.png"])

    def test_variations_of_a_map(self) -> None:
        text = rows.MAP + rows.MAP.replace("h =", "h[jes:up] =")
        self.assertEqual(self.run_words(text, "--out-dir", str(self.dir))[0], 0)
        self.assertEqual(self.files(), ["h.jes.up.png", "h.png"])

    def test_same_input_same_bytes(self) -> None:
        text = rows.VARIED + rows.MAP.replace("h =", "m =")
        for name in ("a", "b"):
            self.run_words(text, "--out", self.at(f"{name}.pdf"))
            self.run_words(text, "--out-dir", self.at(name))
            self.run_words(text, "--out-dir", self.at(name), "--format", "pdf")
        for one, other in (("a.pdf", "b.pdf"), ("a/h.png", "b/h.png"), ("a/h.pdf", "b/h.pdf")):
            self.assertEqual((self.dir / one).read_bytes(), (self.dir / other).read_bytes())

    def test_an_analysis(self) -> None:
        self.assertEqual(self.run_words(MUONS.read_text(), "--out-dir", str(self.dir), "--take", "jets"), (0, "", ""))
        self.assertEqual(self.files(), ["cutflow.png", "jets.png", "pt.png", "pt_eta.png"])


class Inputs(Case):
    """Several inputs, efficiencies, a script."""

    CELLS = " = histo1d 3\n  under 0 0\n  [0,1) {0} {0}\n  over 0 0\n"
    COUNTS = f"p{CELLS.format(2)}q{CELLS.format(4)}"

    def json(self, text: str, *words: str) -> dict[str, Any]:
        status, out, err = self.run_words(text, "--json", "-", *words)
        self.assertEqual((status, err), (0, ""))
        return {picture["name"]: picture for picture in json.loads(out)["pictures"]}

    def other(self, text: str) -> str:
        (self.dir / "other.out").write_text(text)
        return self.at("other.out")

    def test_the_histograms_that_all_have(self) -> None:
        other = self.other(self.COUNTS.replace("q =", "k =") + rows.TAKE.replace("t =", "z ="))
        self.assertEqual(list(self.json(self.COUNTS + rows.REPORT + rows.TAKE, other)), ["p"])

    def test_names_of_inputs(self) -> None:
        other = self.other(self.COUNTS)
        found = self.json(self.COUNTS, other)["p"]["main"]["lines"]
        self.assertEqual([line["label"] for line in found], ["input", "other"])
        found = self.json(self.COUNTS, other, "--legend", "a", "--legend", "b", "--times", "b=3", "--points", "b")
        self.assertEqual([(x["label"], x["values"]) for x in found["p"]["main"]["lines"]], [("a", [2]), ("b", [6])])
        self.assertEqual(found["p"]["ratio"]["lines"][0]["values"], [3])

    def test_efficiency(self) -> None:
        found = self.json(self.COUNTS, "--efficiency", "p", "q")
        self.assertEqual(list(found), ["p", "q", "p_of_q"])
        found = self.json(self.COUNTS, "--efficiency", "p", "q", "--only", "p_of_q", "--label2", "p_of_q=Share")
        self.assertEqual([(name, one["main"]["label"]) for name, one in found.items()], [("p_of_q", "Share")])
        words = ("--efficiency", "p", "q", "--only", "p_of_q", "--out", self.at("e.png"))
        self.assertEqual(self.run_words(self.COUNTS, *words), (0, "", ""))
        self.assertTrue((self.dir / "e.png").read_bytes().startswith(PNG))

    def test_script(self) -> None:
        (self.dir / "s.txt").write_text('# pt: Momentum [MeV]\np = df.Histo1D([0, 1], "pt")\nPrint(p)\n')
        words = ("--script", self.at("s.txt"), "--scale", "pt=0.001", "--only", "p")
        found = self.json(self.COUNTS, *words)["p"]
        self.assertEqual((found["x"]["label"], found["main"]["label"]), ("Momentum [GeV]", "Entries / 0.001 GeV"))

    def test_words(self) -> None:
        other = self.other(self.COUNTS)
        out = ("--out", self.at("a.pdf"))
        cases: list[tuple[tuple[str, ...], str]] = [
            ((other, "--list"), "--list goes with one input"),
            ((other, "--legend", "a", *out), "--legend is given 1 times for 2 inputs"),
            ((other, "--legend", "a", "--legend", "a", *out), "two inputs have one name"),
            ((other, "--points", "a", *out), "no input has that name"),
            ((other, "--times", "other=0", *out), "not TEXT=FACTOR"),
            (("--times", "nominal=2", *out), "--times goes with several inputs"),
            (("--efficiency", "p", "z", *out), "no result z"),
            (("--efficiency", "q", "p", *out), "q has more in a bin than p"),
            (("--scale", "p=0", *out), "with a factor above 0"),
            (("--scale", "pt=2", *out), "no result pt"),
            (("--per-width", "--per-bin", *out), "not allowed with"),
            (("--script", other, *out), "script refused at line 1 place 12: S1 Syntax"),
            (("--only", "p_of_q", *out), "no result p_of_q"),
        ]
        for words, why in cases:
            with self.subTest(words=words):
                status, _, err = self.run_words(self.COUNTS, *words)
                self.assertEqual(status, 2)
                self.assertIn(why, err)
        self.assertEqual(self.files(), ["other.out"])

    def test_inputs_that_differ(self) -> None:
        other = self.other(self.COUNTS.replace("[0,1)", "[0,2)"))
        status, _, err = self.run_words(self.COUNTS, other, "--out-dir", self.at("d"))
        self.assertEqual((status, err), (2, "rdf_plot: p has other edges in one input than in another\n"))


class Statuses(Case):
    def test_refusal_lines(self) -> None:
        for line in rows.REFUSALS:
            with self.subTest(line=line):
                found = self.run_words(line + "\n", "--out-dir", self.at("p"), "--list")
                self.assertEqual(found, (1, "", line + "\n"))
        self.assertEqual(self.files(), [])

    def test_a_fault_line_after_results_draws_and_lists_nothing(self) -> None:
        text = rows.COUNT + rows.VARIED + rows.FAULT + "\n"
        found = self.run_words(text, "--out", self.at("all.pdf"), "--list")
        self.assertEqual(found, (1, "", rows.FAULT + "\n"))
        self.assertEqual(self.files(), [])

    def test_malformed_line(self) -> None:
        status, out, err = self.run_words(rows.COUNT + "s = 1.5\n", "--out", self.at("all.pdf"), "--list")
        self.assertEqual((status, out, err), (2, "", "rdf_plot: line 2: '1.5' is no number\n"))
        self.assertEqual(self.files(), [])

    def test_words(self) -> None:
        out = ("--out", self.at("a.pdf"))
        cases: list[tuple[tuple[str, ...], str]] = [
            ((), "nothing asked for"),
            (("--out", self.at("a.jpg")), "must end with .pdf or .png"),
            ((*out, "--out-dir", self.at("d")), "not allowed with"),
            ((*out, "--format", "png"), "--format goes with --out-dir"),
            ((*out, "--only", "q"), "no result q"),
            ((*out, "--take", "q"), "no result q"),
            ((*out, "--take", "h"), "--take h: not the values of a Take"),
            ((*out, "--label", "q=x"), "no result q"),
            ((*out, "--label", "h"), "--label h: not NAME=TEXT"),
            ((*out, "--label2", "h"), "--label2 h: not NAME=TEXT"),
            ((*out, "--label", "h=$\\nothing$"), "can't be drawn"),
            ((*out, "--bins", "0"), "not a number from 1"),
            ((*out, "--nothing"), "unrecognized"),
        ]
        for words, why in cases:
            with self.subTest(words=words):
                status, _, err = self.run_words(rows.VARIED, *words)
                self.assertEqual(status, 2)
                self.assertIn(why, err)
        self.assertEqual(self.files(), [])

    def test_nothing_to_draw(self) -> None:
        for text in ("", rows.COUNT, rows.TAKE, rows.NO_FILTERS):
            status, _, err = self.run_words(text, "--out", self.at("a.pdf"))
            self.assertEqual(status, 2)
            self.assertIn("nothing to draw", err)
        self.assertEqual(self.files(), [])

    def test_files_that_fail(self) -> None:
        err = io.StringIO()
        with contextlib.redirect_stderr(err):
            status = cli.main([self.at("none.txt"), "--list"])
        self.assertEqual((status, err.getvalue()), (3, f"rdf_plot: {self.at('none.txt')}: No such file or directory\n"))
        status, _, line = self.run_words(rows.REPORT, "--out", self.at("none/r.png"))
        self.assertEqual((status, line), (3, f"rdf_plot: {self.at('none/r.png')}: No such file or directory\n"))

    def test_help_says_what_a_fault_line_does(self) -> None:
        status, out, _ = self.run_words("", "--help")
        self.assertEqual(status, 0)
        self.assertIn("refusal or fault line", out)
        self.assertIn("nothing is drawn", out)


class Lists(Case):
    def test_numbers_and_partial_results(self) -> None:
        text = (
            rows.PARTIALS + rows.VARIED_COUNT.replace("n = ", "m = ").replace("n[", "m[") + rows.WEIGHTED + "x = none\n"
        )
        found = self.run_words(text, "--list")
        self.assertEqual(
            found,
            (
                0,
                "partial n over 0-1 = 2\n"
                "partial n over 0-3 = 4\n"
                "n                  = 4\n"
                "m                  = 2\n"
                "m[pt:down]         = 1\n"
                "m[pt:up]           = 3\n"
                "x                  = none\n",
                "",
            ),
        )

    def test_takes(self) -> None:
        text = rows.TRUTHS + "t = " + " ".join(map(str, range(20))) + "\n"
        self.assertEqual(
            self.run_words(text, "--list")[1], "b = true false true true\nt = 0 1 2 3 4 5 6 7 ... (20 values)\n"
        )

    def test_nothing_is_listed_unasked(self) -> None:
        self.assertEqual(self.run_words(rows.COUNT + rows.REPORT, "--out", self.at("r.png")), (0, "", ""))


class Looks(Case):
    def looks(self, text: str, *words: str) -> dict[str, Look]:
        with mock.patch("rdfplot.plan.of_result", return_value=[]) as called:
            self.assertEqual(self.run_words(text, "--json", "-", *words)[0], 0)
        return {call.args[0].name: call.args[1] for call in called.call_args_list}

    def test_none(self) -> None:
        self.assertEqual(self.looks(rows.VARIED), {"h": Look()})

    def test_labels(self) -> None:
        found = self.looks(rows.VARIED + rows.REPORT, "--label", "h=a = b", "--label2", "h=", "--label", "r=entries")
        self.assertEqual(found, {"h": Look(Quantity("a = b"), Quantity("")), "r": Look(Quantity("entries"))})

    def test_flow_and_bins(self) -> None:
        self.assertEqual(self.looks(rows.VARIED, "--flow", "--bins", "7"), {"h": Look(flow=True, bins=7)})


class Program(Case):
    """The launcher as a process of its own."""

    def process(self, text: str, *words: str) -> subprocess.CompletedProcess[bytes]:
        return subprocess.run(
            [str(PROGRAM), *words], input=text.encode(), capture_output=True, cwd=self.dir, timeout=120
        )

    def test_pipe(self) -> None:
        ended = self.process(rows.VARIED, "--out", "h.png")
        self.assertEqual((ended.returncode, ended.stdout, ended.stderr), (0, b"", b""))
        self.assertTrue((self.dir / "h.png").read_bytes().startswith(PNG))

    def test_pipe_by_its_name(self) -> None:
        ended = self.process(rows.COUNT, "-", "--list")
        self.assertEqual((ended.returncode, ended.stdout, ended.stderr), (0, b"n = 4\n", b""))

    def test_file(self) -> None:
        (self.dir / "in.txt").write_text(rows.COUNT)
        self.assertEqual(self.process("m = 5\n", "in.txt", "--list").stdout, b"n = 4\n")

    def test_fault(self) -> None:
        ended = self.process(rows.VARIED + rows.FAULT + "\n", "--out", "h.png")
        self.assertEqual((ended.returncode, ended.stdout, ended.stderr), (1, b"", rows.FAULT.encode() + b"\n"))
        self.assertEqual(self.files(), [])

    def test_malformed(self) -> None:
        ended = self.process(rows.VARIED + "what\n", "--out", "h.png")
        self.assertEqual((ended.returncode, ended.stdout), (2, b""))
        self.assertEqual(ended.stderr, b"rdf_plot: line 19: not a line that rdf prints here: 'what'\n")
        self.assertEqual(self.files(), [])

    def test_through_a_link(self) -> None:
        (self.dir / "link").symlink_to(PROGRAM)
        ended = subprocess.run([self.at("link"), "--list"], input=b"n = 4\n", capture_output=True, timeout=120)
        self.assertEqual((ended.returncode, ended.stdout), (0, b"n = 4\n"))

    def test_reader_of_the_list_that_is_gone(self) -> None:
        words = [str(PROGRAM), "--list"]
        process = subprocess.Popen(words, stdin=subprocess.PIPE, stdout=subprocess.PIPE, stderr=subprocess.PIPE)
        assert process.stdin and process.stdout and process.stderr
        process.stdout.close()
        process.stdin.write(b"n = 4\n")
        process.stdin.close()
        with process.stderr:
            self.assertEqual(process.stderr.read(), b"")
        self.assertEqual(process.wait(120), 3)

    def test_without_matplotlib(self) -> None:
        code = (
            "import sys; sys.modules['matplotlib'] = None; from rdfplot.cli import main; sys.exit(main(sys.argv[1:]))"
        )
        (self.dir / "in.txt").write_text(rows.COUNT + rows.REPORT)

        def run(*words: str) -> subprocess.CompletedProcess[bytes]:
            words = (sys.executable, "-B", "-c", code, self.at("in.txt"), *words)
            return subprocess.run(words, capture_output=True, cwd=TOOLS, timeout=120)

        ended = run("--out", self.at("r.png"))
        self.assertEqual((ended.returncode, self.files()), (3, ["in.txt"]))
        self.assertIn(b"needs matplotlib", ended.stderr)
        ended = run("--list")
        self.assertEqual((ended.returncode, ended.stdout), (0, b"n = 4\n"))


if __name__ == "__main__":
    unittest.main()
