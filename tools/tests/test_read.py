"""What the reader makes of each form of line, and which lines it refuses."""

from __future__ import annotations

import unittest

from rdfplot.read import (
    Cell,
    Histo1D,
    Histo2D,
    Malformed,
    Partial,
    Refused,
    Report,
    Result,
    Step,
    Value,
    Values,
    percent,
    read,
)

from . import rows


def results(text: str) -> list[Result]:
    return read(text.encode())


class Forms(unittest.TestCase):
    def only(self, text: str) -> Result:
        found = results(text)
        self.assertEqual(len(found), 1)
        return found[0]

    def test_nothing(self) -> None:
        self.assertEqual(results(""), [])

    def test_number(self) -> None:
        self.assertEqual(self.only(rows.COUNT), Result("n", Values((4,))))

    def test_number_beyond_64_bits_is_exact(self) -> None:
        self.assertEqual(self.only(rows.WIDE_SUM).nominal, Values((2 * (2**63 - 1),)))
        self.assertEqual(self.only(f"s = {2**127 - 1}\n").nominal, Values((2**127 - 1,)))
        self.assertEqual(self.only(f"s = {-2**127}\n").nominal, Values((-(2**127),)))

    def test_variations_in_order(self) -> None:
        result = self.only(rows.VARIED_COUNT)
        self.assertEqual(result.nominal, Values((2,)))
        self.assertEqual(list(result.variations.items()), [("pt:down", Values((1,))), ("pt:up", Values((3,)))])

    def test_none(self) -> None:
        values = {r.name: r.nominal for r in results(rows.NO_VALUES)}
        self.assertEqual(values, {"n": Values((0,)), "m": Values(()), "t": Values(()), "x": Values((-1,))})

    def test_take(self) -> None:
        found = results(rows.TAKE)
        self.assertEqual([(r.name, r.nominal) for r in found], [("t", Values((10, 25, 40, 5))), ("x", Values((62,)))])
        self.assertFalse(found[0].nominal.truth)

    def test_take_of_truth_values(self) -> None:
        value = self.only(rows.TRUTHS).nominal
        self.assertEqual(value, Values((True, False, True, True)))
        self.assertTrue(value.truth)
        self.assertEqual(str(value), "true false true true")

    def test_partials(self) -> None:
        result = self.only(rows.PARTIALS)
        self.assertEqual(result.partials, (Partial(((0, 1),), 2), Partial(((0, 3),), 4)))
        self.assertEqual(result.nominal, Values((4,)))

    def test_partial_over_several_runs(self) -> None:
        partial = self.only("partial m over 0,2-4,9 = none\nm = 7\n").partials[0]
        self.assertEqual(partial, Partial(((0, 0), (2, 4), (9, 9)), None))
        self.assertEqual(partial.clusters(), "0,2-4,9")

    def test_histo1d(self) -> None:
        cells = (Cell(0, 0), Cell(-3, 9), Cell(1, 1), Cell(3, 5))
        self.assertEqual(self.only(rows.WEIGHTED), Result("h", Histo1D((0, 10, 25), cells)))

    def test_histo1d_of_vectors(self) -> None:
        cells = (Cell(0, 0), Cell(3, 3), Cell(2, 2), Cell(1, 1))
        self.assertEqual(self.only(rows.ELEMENTS).nominal, Histo1D((0, 2, 50), cells))

    def test_histo1d_with_variations(self) -> None:
        result = self.only(rows.VARIED)
        self.assertEqual(list(result.variations), ["jes:down", "jes:up"])
        up = result.variations["jes:up"]
        self.assertEqual(up, Histo1D((0, 10, 30, 40), (Cell(3, 3), Cell(6, 6), Cell(1, 1), Cell(40, 40), Cell(4, 4))))

    def test_negative_edges(self) -> None:
        text = "h = histo1d 3\n  under 0 0\n  [-9223372036854775808,-1) 5 5\n  over 0 0\n"
        self.assertEqual(self.only(text).nominal.edges, (-(2**63), -1))

    def test_histo2d(self) -> None:
        value = self.only(rows.MAP).nominal
        assert isinstance(value, Histo2D)
        self.assertEqual((value.x_edges, value.y_edges), ((0, 20, 50), (0, 2)))
        one, none = Cell(1, 1), Cell(0, 0)
        self.assertEqual(value.cells, ((none, none, none), (one, one, none), (none, one, one), (none, none, none)))

    def test_report(self) -> None:
        steps = (Step("a", 3, 4, "75.00", "75.00"), Step("b", 1, 3, "33.33", "25.00"))
        self.assertEqual(self.only(rows.REPORT), Result("r", Report(steps)))

    def test_report_of_no_entries(self) -> None:
        value = self.only(rows.EMPTY_REPORT).nominal
        self.assertEqual(value, Report((Step("a", 0, 0, "none", "none"), Step("b", 0, 0, "none", "none"))))

    def test_report_without_filters(self) -> None:
        self.assertEqual(self.only(rows.NO_FILTERS), Result("r", Report(())))

    def test_report_with_a_label_like_its_own_numbers(self) -> None:
        step = self.only("r: x = 1 pass=2 all=1 pass=3 all=4 eff=75.00 cumulative=75.00\n").nominal.steps[0]
        self.assertEqual((step.label, step.passed, step.reached), ("x = 1 pass=2 all=1", 3, 4))

    def test_report_named_usage(self) -> None:
        result = self.only("usage: rdf SCRIPT TABLE pass=3 all=4 eff=75.00 cumulative=75.00\n")
        self.assertEqual((result.name, result.nominal.steps[0].label), ("usage", "rdf SCRIPT TABLE"))

    def test_names_like_other_lines(self) -> None:
        text = "fault = 1\npartial = 2\nno = 3\nscript = 4\n"
        self.assertEqual([r.name for r in results(text)], ["fault", "partial", "no", "script"])

    def test_printed_again(self) -> None:
        for text in (rows.COUNT, rows.VARIED, rows.MAP, rows.REPORT, rows.PARTIALS, rows.TRUTHS):
            with self.subTest(text=text):
                between = "between = 1\n"
                self.assertEqual(len(results(text + text)), 1)
                self.assertEqual(results(text + between + text + text), results(text + between))

    def test_percent_is_cut_off(self) -> None:
        self.assertEqual(percent(2, 3), "66.66")
        self.assertEqual(percent(1999, 200000), "0.99")
        self.assertEqual(percent(5, 4), "125.00")
        self.assertEqual(percent(0, 0), "none")
        self.assertEqual(percent(10**30, 3 * 10**30), "33.33")


class RefusalLines(unittest.TestCase):
    def test_each_alone(self) -> None:
        for line in rows.REFUSALS:
            with self.subTest(line=line), self.assertRaises(Refused) as caught:
                results(line + "\n")
            self.assertEqual(str(caught.exception), line)

    def test_fault_after_results(self) -> None:
        with self.assertRaises(Refused) as caught:
            results(rows.COUNT + rows.WEIGHTED + rows.FAULT + "\n")
        self.assertEqual(str(caught.exception), rows.FAULT)

    def test_fault_where_a_cell_was_due(self) -> None:
        with self.assertRaises(Refused):
            results("h = histo1d 4\n" + rows.FAULT + "\n")

    def test_file_name_that_is_no_utf8(self) -> None:
        with self.assertRaises(Refused) as caught:
            read(b"no file \xff.csv\n")
        self.assertEqual(str(caught.exception).encode("utf-8", "surrogateescape"), b"no file \xff.csv")


class MalformedLines(unittest.TestCase):
    def refuses(self, text: str, line: int, why: str) -> None:
        with self.subTest(text=text[-80:]):
            with self.assertRaises(Malformed) as caught:
                results(text)
            self.assertEqual(caught.exception.line, line)
            self.assertIn(why, caught.exception.why)
            self.assertTrue(str(caught.exception).startswith(f"line {line}: "))

    def test_lines_of_no_form(self) -> None:
        for line in ("hello", "", "n=4", "n  = 4", " n = 4", "2n = 4", "true = 4", "n[pt] = 4", "n" * 65 + " = 4"):
            self.refuses(rows.COUNT + line + "\n", 2, "not a line that rdf prints")

    def test_numbers(self) -> None:
        for word in ("05", "+5", "-0", "4.0", "1e3", "", "x", "4\r", "True", "1_000", "\u0664"):
            self.refuses(f"a = 1\nn = {word}\n", 2, "is no number")
        self.refuses(f"n = {2**127}\n", 1, "more than 128 bits")
        self.refuses(f"n = {-2**127 - 1}\n", 1, "more than 128 bits")
        self.refuses("n = 1" + "0" * 5000 + "\n", 1, "is no number")

    def test_takes(self) -> None:
        self.refuses("t = 1 true\n", 1, "'true' is no number")
        self.refuses("t = true 1\n", 1, "'true' is no number")
        self.refuses("t = 1  2\n", 1, "'' is no number")
        self.refuses("t = 1 none\n", 1, "'none' is no number")

    def test_cut_off(self) -> None:
        self.refuses(rows.COUNT + "s = 10", 2, "cut off")
        self.refuses(rows.COUNT + "n =", 2, "cut off")
        self.refuses(rows.WEIGHTED[:-2], 5, "cut off")

    def test_cells(self) -> None:
        lines = rows.WEIGHTED.splitlines(keepends=True)
        self.refuses("".join(lines[:-1]), 5, "ends after 3 of 4 cells of h")
        self.refuses("".join(lines[:3] + lines[4:]), 4, "the cell over stands where a bin was due")
        self.refuses("".join(lines) + "  over 3 5\n", 6, "not a line that rdf prints")
        self.refuses(rows.WEIGHTED.replace("histo1d 4", "histo1d 3"), 4, "stands where over was due")
        self.refuses(rows.WEIGHTED.replace("histo1d 4", "histo1d 5"), 5, "the cell over stands where a bin was due")
        self.refuses("h = histo1d 2\n  under 0 0\n  over 0 0\n", 1, "at least 3 cells")
        self.refuses(rows.WEIGHTED.replace("  under", "  over"), 2, "stands where under was due")
        self.refuses(rows.WEIGHTED.replace("[10,25)", "[11,25)"), 4, "doesn't begin at 10")
        self.refuses(rows.WEIGHTED.replace("[0,10)", "[10,10)"), 3, "don't rise")
        self.refuses(rows.WEIGHTED.replace("[0,10)", "[0,10]"), 3, "expected cell 2 of 4 of h")
        self.refuses(rows.WEIGHTED.replace("  over", " over"), 5, "expected cell 4 of 4 of h")
        self.refuses(rows.WEIGHTED.replace("-3 9", "-3 09"), 3, "expected cell 2 of 4 of h")
        self.refuses(rows.WEIGHTED.replace("-3 9", "-3"), 3, "expected cell 2 of 4 of h")
        self.refuses(rows.WEIGHTED.replace("-3 9", "-3 -9"), 3, "squares -9 is below 0")
        self.refuses(rows.WEIGHTED.replace("-3 9", f"-3 {2**127}"), 3, "more than 128 bits")
        self.refuses(rows.WEIGHTED.replace("histo1d 4", "histo1d"), 1, "is no number")

    def test_cells_of_maps(self) -> None:
        lines = rows.MAP.splitlines(keepends=True)
        self.refuses("".join(lines[:-1]), 13, "ends after 11 of 12 cells of h")
        self.refuses("".join(lines[:5] + lines[6:]), 6, "the y cell over stands where [0,2) was due")
        self.refuses(rows.MAP.replace("[0,20) over", "[0,21) over"), 7, "the x cell [0,21) stands where [0,20) was due")
        self.refuses(rows.MAP.replace("[20,50) [0,2)", "[20,50) [0,3)"), 9, "the y cell [0,3) stands where [0,2)")
        self.refuses(rows.MAP.replace("histo2d 4 3", "histo2d 3 4"), 4, "the cell over stands where a bin was due")
        self.refuses(rows.MAP.replace("histo2d 4 3", "histo2d 4 2"), 1, "at least 3 cells")
        self.refuses(rows.MAP.replace("  over over 0 0", "  over 0 0"), 13, "expected cell 12 of 12 of h")

    def test_reports(self) -> None:
        self.refuses(rows.REPORT.replace("eff=33.33", "eff=33.34"), 2, "eff=33.34 isn't pass=1 of all=3")
        self.refuses(rows.REPORT.replace("cumulative=25.00", "cumulative=33.33"), 2, "isn't pass=1 of 4")
        self.refuses(rows.REPORT.replace("eff=75.00", "eff=none"), 1, "eff=none isn't")
        self.refuses(rows.REPORT.replace("pass=1", "pass=4"), 2, "pass=4 is above all=3")
        self.refuses(rows.REPORT.replace("r: b", "r b"), 2, "not a line that rdf prints")
        self.refuses("r: pass=3 all=4 eff=75.00 cumulative=75.00\n", 1, "not a line that rdf prints")
        self.refuses('r: a"b pass=3 all=4 eff=75.00 cumulative=75.00\n', 1, "not a line that rdf prints")

    def test_partials(self) -> None:
        self.refuses("partial n over 1-1 = 2\nn = 2\n", 1, "doesn't rise")
        self.refuses("partial n over 0-1,2 = 2\nn = 2\n", 1, "should stand apart")
        self.refuses("partial n over 4,2 = 2\nn = 2\n", 1, "should stand apart")
        self.refuses("partial n over 0- = 2\nn = 2\n", 1, "no run of clusters")
        self.refuses("partial n over 0 = 2\nm = 2\n", 2, "expected n")
        self.refuses("partial n over 0 = 2\n", 2, "the input ends")
        self.refuses("partial n over 0 = 2\nn = 1 2\n", 2, "isn't one number")
        self.refuses("partial h over 0 = 2\n" + rows.WEIGHTED, 2, "isn't one number")

    def test_variations(self) -> None:
        self.refuses("n[pt:up] = 3\n", 1, "n[pt:up] without the nominal n")
        self.refuses("m = 1\nn[pt:up] = 3\n", 2, "n[pt:up] without the nominal n")
        self.refuses("n = 1\nn[pt:up] = 3\nn[pt:up] = 3\n", 3, "stands twice")
        self.refuses("n = 1\nn[pt:up] = true\n", 2, "of another kind")
        self.refuses("n = none\nn[pt:up] = true\nn[pt:down] = 1\n", 3, "of another kind")
        self.refuses(rows.WEIGHTED + "h[pt:up] = 3\n", 6, "of another kind")
        self.refuses(rows.WEIGHTED + rows.WEIGHTED.replace("h =", "h[a:b] =").replace("25", "26"), 6, "other edges")
        self.refuses(rows.MAP + rows.MAP.replace("h =", "h[a:b] =").replace("50", "51"), 14, "other edges")

    def test_printed_again_otherwise(self) -> None:
        self.refuses(rows.COUNT + "m = 1\nn = 5\n", 3, "n was printed before, with other values")
        self.refuses(rows.REPORT + rows.COUNT + rows.EMPTY_REPORT, 4, "r was printed before")


class Kinds(unittest.TestCase):
    def test_take_of_one_variation_without_values(self) -> None:
        result = results("t = none\nt[a:b] = 1 2\nt[a:c] = none\n")[0]
        expected: dict[str, Value] = {"a:b": Values((1, 2)), "a:c": Values(())}
        self.assertEqual(result.variations, expected)


if __name__ == "__main__":
    unittest.main()
