"""The numbers in --json are those of the output, and what is drawn is made of them."""

from __future__ import annotations

import contextlib
import io
import json
import re
import tempfile
import unittest
from pathlib import Path
from typing import Any

from rdfplot import cli

from . import rows

TOP = Path(__file__).resolve().parent.parent.parent
OUTPUTS = [TOP / "tools" / "tests" / "muons.txt", *sorted((TOP / "examples").glob("*.out"))]


def json_of(*words: str) -> dict[str, Any]:
    out = io.StringIO()
    with contextlib.redirect_stdout(out):
        status = cli.main([*words, "--json", "-"])
    assert status == 0
    return json.loads(out.getvalue())


def cells_of(text: str) -> dict[str, list[tuple[int, int]]]:
    """The last two numbers of each cell's line by the label of its histogram, read without rdfplot."""
    found: dict[str, list[tuple[int, int]]] = {}
    label = ""
    for line in text.splitlines():
        if head := re.fullmatch(r"(\S+) = histo[12]d [\d ]+", line):
            label = head[1]
        elif line.startswith("  "):
            total, squares = line.split()[-2:]
            found.setdefault(label, []).append((int(total), int(squares)))
    return found


def flat(cells: list[Any]) -> list[int]:
    return [n for cell in cells for n in flat(cell)] if cells and isinstance(cells[0], list) else cells


class Numbers(unittest.TestCase):
    def test_cells_are_those_of_the_output(self) -> None:
        for file in OUTPUTS:
            with self.subTest(file=file.name):
                (only,) = json_of(str(file))["inputs"]
                found = {}
                for name, result in only["results"].items():
                    for tag, one in {"": result, **result.get("variations", {})}.items():
                        if one["kind"].startswith("Histo"):
                            label = f"{name}[{tag}]" if tag else name
                            found[label] = list(zip(flat(one["sums"]), flat(one["squares"])))
                self.assertEqual(found, cells_of(file.read_text()))

    def test_what_is_drawn_is_made_of_them(self) -> None:
        drawn = 0
        for file in OUTPUTS:
            text = file.read_text()
            for picture in json_of(str(file), "--scale2", f"{next(iter(cells_of(text)))}=1/8")["pictures"]:
                if picture["kind"] != "chart":
                    continue
                first = picture["name"] == next(iter(cells_of(text)))
                for line in picture["main"]["lines"]:
                    tag = line["label"]
                    due = cells_of(text)[picture["name"] + ("" if tag == "nominal" else f"[{tag}]")][1:-1]
                    edges = picture["x"]["edges"]
                    widths = [b - a for a, b in zip(edges, edges[1:])] if picture["per_width"] else [1] * len(due)
                    for value, width, (total, _) in zip(line["values"], widths, due):
                        self.assertAlmostEqual(value * width * (8 if first else 1), total, delta=1e-9 * abs(total))
                        drawn += 1
        self.assertGreater(drawn, 100)

    def test_wide_numbers_are_whole(self) -> None:
        with tempfile.TemporaryDirectory() as place:
            file = Path(place) / "in.txt"
            file.write_text(rows.WIDE_SUM + rows.TAKE + rows.TRUTHS + rows.PARTIALS + rows.REPORT)
            (only,) = json_of(str(file))["inputs"]
        results = only["results"]
        self.assertEqual(results["s"], {"kind": "values", "values": [18446744073709551614]})
        self.assertEqual(results["b"]["values"], [True, False, True, True])
        self.assertEqual(results["n"]["partials"], [{"clusters": "0-1", "value": 2}, {"clusters": "0-3", "value": 4}])
        self.assertEqual(results["r"]["filters"][1], {"label": "b", "passed": 1, "reached": 3})

    def test_efficiency(self) -> None:
        file = TOP / "examples" / "trigger_efficiency.out"
        passed, reached = (cells_of(file.read_text())[name][1:-1] for name in ("pass_pt", "all_pt"))
        words = ("--efficiency", "pass_pt", "all_pt", "--only", "pass_pt_of_all_pt")
        (picture,) = json_of(str(file), *words)["pictures"]
        (line,) = picture["main"]["lines"]
        self.assertEqual(line["values"], [p / q for (p, _), (q, _) in zip(passed, reached)])

    def test_ratio_to_nothing_is_null(self) -> None:
        with tempfile.TemporaryDirectory() as place:
            file = Path(place) / "in.txt"
            file.write_text(rows.VARIED)
            (picture,) = json_of(str(file))["pictures"]
        self.assertEqual(picture["ratio"]["lines"][0]["values"], [0.5, None, 1.0])


if __name__ == "__main__":
    unittest.main()
