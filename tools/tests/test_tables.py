"""describe and show: what they print of a table, and what they refuse."""

from __future__ import annotations

import contextlib
import io
import os
import subprocess
import tempfile
import unittest
from pathlib import Path

from rdftable import describe, show

TOOLS = Path(__file__).resolve().parent.parent
BUILT = TOOLS.parent / "crates" / "rdf" / "out" / "rdf"
# The reference answers as the program does, and is there before anything is built.
PROGRAM = os.environ.get("RDF_PROGRAM") or str(BUILT if BUILT.exists() else TOOLS / "reference" / "rdf_reference.py")

TABLE = """\
pt:int,jets:vec,e:vec,block:cut
10,3;4,,1
-25,,7,0
40,50,-1;1;1,0
5,1;1;1;1;1;1;1;1;9,2,1
"""
REFUSED = [
    ("pt:int\n1\n2.5\n", "table refused at entry 1 field 0: B3 BadInt"),
    ("pt:int,v:vec\n1,2\n2\n", "table refused at entry 1: B2 FieldCount"),
    ("pt:int,v:vec\n1,2;\n", "table refused at entry 0 field 1: B4 BadVec"),
    ("pt:int,b:cut\n1,2\n", "table refused at entry 0 field 1: B6 BadCut"),
    ("pt\n", "table refused at header field 0: B1 Header"),
    ("", "table refused at header field 0: B1 Header"),
]


class Case(unittest.TestCase):
    def setUp(self) -> None:
        place = tempfile.TemporaryDirectory()
        self.addCleanup(place.cleanup)
        self.file = Path(place.name) / "a.csv"
        self.addCleanup(os.environ.update, {"RDF_PROGRAM": os.environ.get("RDF_PROGRAM", PROGRAM)})
        os.environ["RDF_PROGRAM"] = PROGRAM

    def run_on(self, command: object, text: str, *words: str) -> tuple[int, str]:
        self.file.write_bytes(text.encode())
        out = io.StringIO()
        with contextlib.redirect_stdout(out), contextlib.redirect_stderr(io.StringIO()):
            try:
                status = command.main([str(self.file), *words])  # type: ignore[attr-defined]
            except SystemExit as ended:
                status = int(ended.code or 0)
        return status, out.getvalue()


class Describe(Case):
    def test_a_table(self) -> None:
        status, out = self.run_on(describe, TABLE)
        self.assertEqual(status, 0)
        self.assertEqual(out.splitlines(), [
            f"Table     {self.file}, {len(TABLE)} bytes",
            "Entries   4",
            "Clusters  2, of 1 to 3 entries (2 marks, at most 10000)",
            "Columns   3",
            "",
            "Column  Kind  Least  Greatest  Length  Elements",
            "pt      int     -25        40",
            "jets    vec       1        50  0 to 9        12",
            "e       vec      -1         7  0 to 3         5",
            "block   cut",
        ])  # fmt: skip

    def test_clusters(self) -> None:
        rows = "".join(f"{i}\n" for i in range(7))
        for size, said in (("3", "3, of 1 to 3 entries (no marks, at most 3)"), ("1", "7, of 1 entries")):
            self.assertIn(f"Clusters  {said}", self.run_on(describe, "n:int\n" + rows, "--cluster", size)[1])

    def test_no_entries(self) -> None:
        status, out = self.run_on(describe, "n:int,v:vec\n")
        self.assertEqual((status, out.splitlines()[1:3]), (0, ["Entries   0", "Clusters  0"]))
        self.assertEqual([line.split() for line in out.splitlines()[-2:]], [
            ["n", "int", "none", "none"], ["v", "vec", "none", "none", "0", "to", "0", "0"],
        ])  # fmt: skip

    def test_more_columns_than_a_script_has_results(self) -> None:
        header = ",".join(f"c{i}:int" for i in range(64))
        low, high = (",".join(str(sign * i) for i in range(64)) for sign in (-1, 1))
        status, out = self.run_on(describe, f"{header}\n{low}\n{high}\n")
        self.assertEqual(status, 0)
        found = [line.split() for line in out.splitlines()[-64:]]
        self.assertEqual(found, [[f"c{i}", "int", str(-i), str(i)] for i in range(64)])
        for script in describe.scripts([f"c{i}" for i in range(64)]):
            self.assertLessEqual(script.count(" = "), 64)

    def test_spellings_of_csv(self) -> None:
        plain = self.run_on(describe, TABLE)[1].splitlines()[1:]
        quoted = '\ufeff"pt:int",jets:vec,e:vec,"block:cut"\r\n\r\n10,"3;4","",1\r-25,"",7,0\n'
        quoted += '"40",50,-1;1;1,0\n5,1;1;1;1;1;1;1;1;9,2,1'
        self.assertEqual(self.run_on(describe, quoted)[1].splitlines()[1:], plain)

    def test_refused(self) -> None:
        for text, line in REFUSED:
            self.assertEqual(self.run_on(describe, text), (7, line + "\n"))

    def test_no_file(self) -> None:
        out = io.StringIO()
        with contextlib.redirect_stdout(out):
            self.assertEqual(describe.main([str(self.file)]), 5)
        self.assertEqual(out.getvalue(), f"no file {self.file}\n")

    def test_no_program(self) -> None:
        os.environ["RDF_PROGRAM"] = str(self.file) + ".none"
        self.assertEqual(self.run_on(describe, TABLE), (70, ""))

    def test_a_pipe(self) -> None:
        words = [str(TOOLS / "rdf_describe"), "/dev/stdin"]
        done = subprocess.run(words, input=TABLE.encode(), capture_output=True, timeout=120)
        self.assertEqual((done.returncode, done.stdout.splitlines()[1]), (0, b"Entries   4"))

    def test_words(self) -> None:
        for words in (("--cluster", "0"), ("--cluster", "x"), ("b.csv",)):
            self.assertEqual(self.run_on(describe, TABLE, *words)[0], 2)


class Show(Case):
    def test_first_entries(self) -> None:
        status, out = self.run_on(show, TABLE, "2")
        self.assertEqual(status, 0)
        self.assertEqual(out.splitlines(), [
            "entry  pt:int  jets:vec  e:vec  block:cut",
            "    0      10  3;4                      1",
            "    1     -25            7              0",
            "...",
        ])  # fmt: skip

    def test_all_entries_and_long_vectors(self) -> None:
        out = self.run_on(show, TABLE)[1].splitlines()
        self.assertEqual(len(out), 5)
        self.assertIn("1;1;1;1;1;1;... 9 in all", out[4])

    def test_only_what_is_shown_is_checked(self) -> None:
        text = "pt:int\n1\nwrong\n"
        self.assertEqual(self.run_on(show, text, "1"), (0, "entry  pt:int\n    0       1\n...\n"))
        self.assertEqual(self.run_on(show, text, "2"), (7, "table refused at entry 1 field 0: B3 BadInt\n"))

    def test_refused(self) -> None:
        for text, line in REFUSED:
            self.assertEqual(self.run_on(show, text), (7, line + "\n"))

    def test_words(self) -> None:
        for words in (("0",), ("-1",), ("x",), ("1", "2")):
            self.assertEqual(self.run_on(show, TABLE, *words)[0], 2)


if __name__ == "__main__":
    unittest.main()
