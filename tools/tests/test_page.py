"""The commands of docs/PICTURES.md that need nothing but what is stored."""

from __future__ import annotations

import os
import re
import shutil
import subprocess
import tempfile
import unittest
from pathlib import Path

from . import needs_matplotlib
from .test_tables import PROGRAM

TOP = Path(__file__).resolve().parent.parent.parent
PAGE = (TOP / "docs" / "PICTURES.md").read_text(encoding="utf-8")
BLOCKS = re.findall(r"^```(sh|text)\n(.*?)^```$", PAGE, re.M | re.S)


class Page(unittest.TestCase):
    def setUp(self) -> None:
        place = tempfile.TemporaryDirectory()
        self.addCleanup(place.cleanup)
        self.dir = Path(place.name)
        for name in ("tools", "examples", "docs"):
            (self.dir / name).symlink_to(TOP / name)

    def run_line(self, line: str) -> str:
        # The launcher's two commands are these programs.
        line = re.sub(r"\./rdf (describe|show)", r"tools/rdf_\1", line)
        done = subprocess.run(
            line,
            shell=True,
            cwd=self.dir,
            capture_output=True,
            text=True,
            timeout=300,
            env={**os.environ, "RDF_PROGRAM": PROGRAM, "PYTHONDONTWRITEBYTECODE": "1"},
        )
        self.assertEqual((done.returncode, done.stderr), (0, ""), line)
        return done.stdout

    def test_what_the_page_prints(self) -> None:
        printed = 0
        for (kind, commands), (sort, due) in zip(BLOCKS, BLOCKS[1:]):
            if (kind, sort) == ("sh", "text"):
                self.assertEqual("".join(map(self.run_line, commands.splitlines())), due)
                printed += 1
        self.assertEqual(printed, 1)

    def test_pictures(self) -> None:
        needs_matplotlib()
        lines = [line for kind, text in BLOCKS if kind == "sh" for line in text.replace("\\\n", " ").splitlines()]
        stored = [line for line in lines if re.search(r"rdf_plot .*(tests/muons.txt|examples/\S+\.out)", line)]
        self.assertGreater(len(stored), 4)
        for line in stored:
            self.run_line(line)
        found = {str(file.relative_to(self.dir)) for file in self.dir.rglob("*.p*") if file.is_file()}
        found = {name for name in found if not name.startswith(("tools", "examples", "docs"))}
        self.assertEqual(found, {
            "pictures/cutflow.pdf", "pictures/pt.pdf", "pictures/pt_eta.pdf", "all.pdf", "pt.png", "efficiency.png",
        })  # fmt: skip
        self.assertTrue((self.dir / "pt.json").exists())

    @unittest.skipUnless(shutil.which("dot"), "no Graphviz")
    def test_graph(self) -> None:
        (line,) = [line for kind, text in BLOCKS for line in text.splitlines() if line.startswith("tools/rdf_graph")]
        self.run_line(line)
        self.assertTrue((self.dir / "graph.png").read_bytes().startswith(b"\x89PNG"))

    def test_each_picture_is_there_and_made_anew_by_the_script(self) -> None:
        folder = TOP / "docs" / "pictures"
        stored = {file.stem for file in folder.glob("*.png")}
        made = re.findall(r"^(?:plot|graph) (\w+)", (folder / "make.sh").read_text(), re.M)
        self.assertEqual(sorted(made), sorted(stored))
        named = set(re.findall(r"\]\(pictures/(\S+)\.png\)", PAGE))
        self.assertGreater(len(named), 10)
        self.assertLessEqual(named, stored)


if __name__ == "__main__":
    unittest.main()
