"""What stands in the figures: the data of what is drawn, the texts, the places of the axes."""

from __future__ import annotations

import itertools
import math
import unittest
import warnings
from dataclasses import replace
from typing import Any

from . import needs_matplotlib

needs_matplotlib()

import numpy as np  # noqa: E402
from matplotlib.axes import Axes  # noqa: E402
from matplotlib.figure import Figure  # noqa: E402
from matplotlib.patches import StepPatch  # noqa: E402

from rdfplot import building, draw, efficiency, frames, plan, style  # noqa: E402
from rdfplot.charts import Look  # noqa: E402
from rdfplot.quantities import Quantity  # noqa: E402
from rdfplot.read import read  # noqa: E402

from . import rows  # noqa: E402

PER_BIN = Look(per_width=False)
ERROR = "error of nominal"


def named(x: str, y: str) -> Look:
    return replace(PER_BIN, x=Quantity().shown(x), y=Quantity().shown(y))


def figures(text: str, look: Look = PER_BIN) -> dict[str, Figure]:
    result = read(text.encode())[0]
    return {picture.name: draw.figure(picture) for picture in plan.of_result(result, look)}


def figure(text: str, look: Look = PER_BIN) -> Figure:
    (only,) = figures(text, look).values()
    return only


def axes(of: Figure, label: str = "main") -> Axes:
    (only,) = (part for part in of.axes if part.get_label() == label)
    return only


def steps(of: Axes) -> dict[str, StepPatch]:
    return {patch.get_label(): patch for patch in of.patches if isinstance(patch, StepPatch)}


def texts(of: Axes) -> list[str]:
    return [text.get_text() for text in of.texts]


def many_varied(count: int) -> str:
    """A histogram of 100 and 4 under so many variations, of which the i-th moves 100 by i, and 4 up by i."""
    form = "{} = histo1d 4\n  under 0 0\n  [0,1) {} 100\n  [1,2) {} 4\n  over 0 0\n"
    text = form.format("h", 100, 4)
    for i in range(1, count + 1):
        text += form.format(f"h[v{i}:down]", 100 - i, 4) + form.format(f"h[v{i}:up]", 100 + i, 4 + i)
    return text


class Case(unittest.TestCase):
    def setUp(self) -> None:
        context = style.applied()
        context.__enter__()
        self.addCleanup(context.__exit__, None, None, None)

    def same(self, found: Any, due: Any) -> None:
        np.testing.assert_array_equal(np.asarray(found, float), np.asarray(due, float))


class Steps(Case):
    def test_heights_and_edges(self) -> None:
        values, edges, _ = steps(axes(figure(rows.WEIGHTED)))["nominal"].get_data()
        self.same(values, [-3, 1])
        self.same(edges, [0, 10, 25])

    def error_bars(self, of: Axes) -> list[Any]:
        (container,) = of.containers
        return container.lines[2][0].get_segments()

    def test_error_bars_are_roots_of_squares(self) -> None:
        low, high = self.error_bars(axes(figure(rows.WEIGHTED)))
        self.same(low, [[5, -3 - 3], [5, -3 + 3]])
        self.same(high, [[17.5, 0], [17.5, 2]])
        ends = [segment[:, 1] for segment in self.error_bars(axes(figure(rows.ELEMENTS)))]
        np.testing.assert_allclose(ends, [[3 - math.sqrt(3), 3 + math.sqrt(3)], [2 - math.sqrt(2), 2 + math.sqrt(2)]])

    def test_outside_as_text(self) -> None:
        self.assertEqual(texts(axes(figure(rows.WEIGHTED))), ["underflow 0\noverflow 3 ± 2.24"])
        self.assertEqual(texts(axes(figure(rows.VARIED))), ["underflow 2 ± 1.41\noverflow 1 ± 1"])

    def test_errors_without_powers_of_ten(self) -> None:
        text = "h = histo1d 3\n  under {} {}\n  [0,1) 1 1\n  over 0 0\n"
        self.assertEqual(texts(axes(figure(text.format(6290, 6657474))))[0], "underflow 6290 ± 2580\noverflow 0")
        self.assertEqual(texts(axes(figure(text.format(-7, 10**36))))[0], "underflow -7 ± 1e+18\noverflow 0")

    def test_outside_as_bins(self) -> None:
        main = axes(figure(rows.WEIGHTED, Look(flow=True, per_width=False)))
        values, edges, _ = steps(main)["nominal"].get_data()
        self.same(values, [0, -3, 1, 3])
        self.same(edges[1:-1], [0, 10, 25])
        self.assertLess(edges[0], 0)
        self.assertGreater(edges[-1], 25)
        self.assertEqual(len(self.error_bars(main)), 4)
        self.assertEqual(texts(main), ["under", "over"])
        self.assertTrue(all(0 <= place <= 25 for place in main.xaxis.get_majorticklocs()))

    def test_one_panel_without_variations(self) -> None:
        found = figure(rows.WEIGHTED)
        self.assertEqual([part.get_label() for part in found.axes], ["main"])
        self.assertIsNone(axes(found).get_legend())

    def test_variations_are_lines_of_their_own(self) -> None:
        found = steps(axes(figure(rows.VARIED)))
        self.assertEqual(list(found), ["nominal", "jes:down", "jes:up"])
        self.same(found["nominal"].get_data().values, [4, 0, 8])
        self.same(found["jes:down"].get_data().values, [2, 3, 8])
        self.same(found["jes:up"].get_data().values, [6, 1, 40])
        looks = {(patch.get_edgecolor(), str(patch.get_linestyle())) for patch in found.values()}
        self.assertEqual(len(looks), 3)
        self.assertEqual(len({look[0] for look in looks}), 2)
        self.assertEqual(len({look[1] for look in looks}), 3)

    def test_two_sides_of_a_variation_have_one_colour(self) -> None:
        found = steps(axes(figure(rows.VARIED)))
        down, up = found["jes:down"], found["jes:up"]
        self.assertEqual(down.get_edgecolor(), up.get_edgecolor())
        self.assertNotEqual(down.get_edgecolor(), found["nominal"].get_edgecolor())
        dashes = [patch.get_linestyle()[1] for patch in (down, up)]
        self.assertGreater(dashes[0][0], dashes[0][1])  # dashed: more line than gap
        self.assertEqual(dashes[1][0], dashes[1][1])  # dotted
        other = rows.VARIED.replace("h[jes:up]", "h[pu:up]")
        found = steps(axes(figure(other)))
        self.assertNotEqual(found["jes:down"].get_edgecolor(), found["pu:up"].get_edgecolor())

    def test_no_line_down_to_0_at_the_edges(self) -> None:
        for patch in steps(axes(figure(rows.VARIED))).values():
            self.assertIsNone(patch.get_data().baseline)
            xs, ys = patch.get_path().vertices.T
            self.same([xs[0], ys[0], xs[-1], ys[-1]], [0, patch.get_data().values[0], 40, patch.get_data().values[-1]])

    def test_logarithmic_axis(self) -> None:
        for text in (rows.VARIED, rows.WEIGHTED, rows.VARIED.replace("4 16", "4000000000 16")):
            main = axes(figure(text, replace(PER_BIN, log=True)))
            self.assertEqual(main.get_yscale(), "log")
            positive = [v for patch in steps(main).values() for v in patch.get_data().values if v > 0]
            self.assertLess(main.get_ylim()[0], min(positive))
            self.assertGreater(main.get_ylim()[1], max(positive))

    def test_many_variations_are_a_band(self) -> None:
        text = many_varied(4)
        found = steps(axes(figure(text)))
        self.assertEqual(set(found), {"nominal", "envelope of variations"})
        self.same(found["envelope of variations"].get_data().values, [104, 8])
        self.same(found["envelope of variations"].get_data().baseline, [96, 4])
        found = steps(axes(figure(text, replace(PER_BIN, singles=True))))
        self.assertEqual(len(found), 10)
        self.assertEqual(len(steps(axes(figure(many_varied(3))))), 7)

    def test_ratios(self) -> None:
        found = steps(axes(figure(rows.VARIED), "ratio"))
        self.same(found["jes:down"].get_data().values, [0.5, math.nan, 1])
        self.same(found["jes:up"].get_data().values, [1.5, math.nan, 5])

    def test_band_of_nominal_error(self) -> None:
        band = steps(axes(figure(rows.VARIED), "ratio"))[ERROR].get_data()
        np.testing.assert_allclose(band.values, [2, math.nan, 1 + math.sqrt(8) / 8])
        np.testing.assert_allclose(band.baseline, [0, math.nan, 1 - math.sqrt(8) / 8])

    def test_ratios_with_bins_outside(self) -> None:
        found = steps(axes(figure(rows.VARIED, Look(flow=True, per_width=False)), "ratio"))
        self.same(found["jes:up"].get_data().values, [1.5, 1.5, math.nan, 5, 4])

    def test_ratio_of_wide_sums(self) -> None:
        text = "h = histo1d 3\n  under 0 0\n  [0,1) {} 1\n  over 0 0\n"
        wide = 2**126
        both = text.format(wide) + text.format(wide + wide // 2).replace("h =", "h[a:b] =")
        found = figure(both)
        self.same(steps(axes(found, "ratio"))["a:b"].get_data().values, [1.5])
        self.same(steps(axes(found))["nominal"].get_data().values, [2.0**126])

    def test_mark_where_the_ratio_leaves_the_panel(self) -> None:
        lower = axes(figure(rows.VARIED), "ratio")
        bottom, top = lower.get_ylim()
        self.assertLess(top, 5)
        marks = [line for line in lower.lines if line.get_marker() == "^"]
        self.assertEqual(len(marks), 1)
        self.same(marks[0].get_xdata(), [35])
        self.same(marks[0].get_ydata(), [top])
        self.assertEqual([line for line in lower.lines if line.get_marker() == "v"], [])
        self.assertLess(bottom, 0)

    def test_panels_stand_below_each_other(self) -> None:
        found = figure(rows.VARIED)
        upper, lower = axes(found).get_position(), axes(found, "ratio").get_position()
        self.assertAlmostEqual(upper.x0, lower.x0)
        self.assertAlmostEqual(upper.x1, lower.x1)
        self.assertGreater(upper.y0, lower.y1)
        self.assertEqual(axes(found).get_xlim(), axes(found, "ratio").get_xlim())

    def test_legend(self) -> None:
        legend = axes(figure(rows.VARIED)).get_legend()
        self.assertEqual([t.get_text() for t in legend.get_texts()], ["nominal", "jes:down", "jes:up", ERROR])

    def test_legend_with_names_that_begin_with_an_underscore(self) -> None:
        legend = axes(figure(rows.VARIED.replace("jes:", "_jes:"))).get_legend()
        self.assertEqual([t.get_text() for t in legend.get_texts()][1:3], ["_jes:down", "_jes:up"])

    def test_names_of_axes(self) -> None:
        found = figure(rows.WEIGHTED)
        self.assertEqual(axes(found).get_xlabel(), "h")
        self.assertEqual(axes(found).get_ylabel(), "Sum of weights per bin")
        found = figure(rows.WEIGHTED, named("$p_T$", "Events"))
        self.assertEqual((axes(found).get_xlabel(), axes(found).get_ylabel()), ("$p_T$", "Events"))
        found = figure(rows.VARIED)
        self.assertEqual((axes(found).get_xlabel(), axes(found, "ratio").get_xlabel()), ("", "h"))

    def test_text_lies_just_above_what_is_drawn(self) -> None:
        for low in (400, -400):
            with self.subTest(low=low):
                cells = [low, 400, low, 400, 400]
                lines = [f"  [{i},{i + 1}) {cell} 400\n" for i, cell in enumerate(cells)]
                text = "h = histo1d 7\n  under 0 0\n" + "".join(lines) + "  over 0 0\n"
                main = axes(figure(text + text.replace("h =", "h[a:b] =")))
                main.figure.draw_without_rendering()
                highest = main.transLimits.transform((0, 400 + math.sqrt(400)))[1]
                boxes = (main.texts[0], main.get_legend())
                lowest = min(b.get_window_extent().transformed(main.transAxes.inverted()).y0 for b in boxes)
                self.assertAlmostEqual(highest, lowest - 0.03, places=6)

    def test_room_below_0(self) -> None:
        text = "h = histo1d 3\n  under 0 0\n  [0,1) {} 400\n  over 0 0\n"
        self.assertEqual(axes(figure(text.format(5))).get_ylim()[0], 0)
        self.assertLess(axes(figure(text.format(-5))).get_ylim()[0], -25)

    def test_edges_that_floats_cannot_hold(self) -> None:
        first = 1700000000000000001
        text = f"h = histo1d 4\n  under 0 0\n  [{first},{first + 1}) 5 5\n  [{first + 1},{first + 3}) 6 6\n  over 0 0\n"
        main = axes(figure(text))
        self.same(steps(main)["nominal"].get_data().edges, [0, 1, 3])
        self.assertEqual(main.get_xlabel(), f"h - {first}")

    def test_ticks_inside_on_all_sides(self) -> None:
        main = axes(figure(rows.WEIGHTED))
        for axis in (main.xaxis, main.yaxis):
            for which in ("major", "minor"):
                tick = (axis.get_major_ticks() if which == "major" else axis.get_minor_ticks())[0]
                self.assertEqual(tick.get_tickdir(), "in")
                self.assertTrue(tick.tick1line.get_visible() and tick.tick2line.get_visible())

    def test_nothing_filled(self) -> None:
        text = "h = histo1d 3\n  under 0 0\n  [0,1) 0 0\n  over 0 0\n"
        main = axes(figure(text + text.replace("h =", "h[a:b] =")))
        self.same(steps(main)["a:b"].get_data().values, [0])
        self.assertGreater(main.get_ylim()[1], 0)

    def test_many_and_long_variations(self) -> None:
        one = "[v{0}:" + "t" * 60 + "] = histo1d 3\n  under 0 0\n  [0,1) {0} 9\n  over 0 0\n"
        text = "h = histo1d 3\n  under 0 0\n  [0,1) 7 9\n  over 0 0\n" + "".join("h" + one.format(i) for i in range(30))
        found = figure(text, replace(PER_BIN, singles=True))
        legend = axes(found).get_legend()
        self.assertEqual(len(legend.get_texts()), 33)
        found.draw_without_rendering()
        box = legend.get_window_extent().transformed(found.transFigure.inverted())
        self.assertGreater(box.x0, axes(found).get_position().x1)
        self.assertLess(box.x1, 1)
        self.assertGreater(box.y0, 0)
        lines = [patch for patch in steps(axes(found)).values() if not patch.get_fill()]
        styles = {(patch.get_edgecolor(), str(patch.get_linestyle())) for patch in lines}
        self.assertEqual(len(styles), 31)


def map_of(x: int, y: int) -> str:
    """A map of so many bins with 1 in each."""
    names = [["under", *(f"[{i},{i + 1})" for i in range(n)), "over"] for n in (x, y)]
    cells = "".join(f"  {a} {b} 1 1\n" for a in names[0] for b in names[1])
    return f"h = histo2d {x + 2} {y + 2}\n{cells}"


def grown(times: int, variations: int) -> str:
    """A histogram of large sums that rises to the right, in bins that begin beyond a million."""
    bins = range(8)

    def one(label: str, more: int) -> str:
        cells = "".join(f"  [{(i + 2) * 10**6},{(i + 3) * 10**6}) {(i + 1) * times + more} {times}\n" for i in bins)
        return f"{label} = histo1d 10\n  under {times} {times}\n{cells}  over 0 0\n"

    return one("h", 0) + "".join(one(f"h[v{i}:up]", i) for i in range(variations))


class Nothing(Case):
    """Bins without a number are drawn without a warning of matplotlib's."""

    def test_no_positive_sum_and_no_ratio(self) -> None:
        empty = read(rows.VARIED.replace(" 4 16", " 0 0").replace(" 8 8", " 0 0").encode())[0]
        filled = read(rows.VARIED.encode())[0]
        with warnings.catch_warnings():
            warnings.simplefilter("error")
            for look in (Look(), Look(log=True), Look(log=True, flow=True), Look(band="quadrature")):
                for results in ([empty], [empty, filled], [filled, empty]):
                    inputs = [building.Input(f"i{place}", one) for place, one in enumerate(results)]
                    found = draw.figure(plan.over_each_other("h", inputs, replace(look, points=frozenset(["i1"]))))
                    found.draw_without_rendering()

    def test_no_efficiency(self) -> None:
        empty = read(b"h = histo1d 3\n  under 0 0\n  [0,1) 0 0\n  over 0 0\n")[0]
        with warnings.catch_warnings():
            warnings.simplefilter("error")
            chart = efficiency.efficiency("e", [efficiency.Pair("nominal", empty, empty)] * 2, Look())
            self.assertEqual(axes(draw.figure(plan.Picture("e", chart))).get_ylim()[0], 0)


class Layout(Case):
    """Texts stand apart from each other, and from what is drawn."""

    def test_texts(self) -> None:
        looks = [PER_BIN, Look(log=True), Look(flow=True), Look(per_width=True), Look(band="envelope", singles=True)]
        for times, variations in ((1, 0), (10**7, 2), (10**9, 8), (10**12, 30)):
            for look in looks if variations == 2 else looks[-1:]:
                with self.subTest(times=times, variations=variations, look=look):
                    self.check(figure(grown(times, variations), look))

    def check(self, of: Figure) -> None:
        of.draw_without_rendering()
        main = axes(of)
        boxes = [part.get_window_extent() for part in main.texts if part.get_text() not in ("under", "over")]
        legend = main.get_legend()
        boxes += [legend.get_window_extent()] if legend else []
        for part in of.axes:
            for axis in (part.xaxis, part.yaxis):
                texts = [axis.get_offset_text(), axis.label]
                boxes += [text.get_window_extent() for text in texts if text.get_text()]
        for one, other in itertools.combinations(boxes, 2):
            self.assertFalse(one.overlaps(other))
        for box in boxes:
            self.assertTrue(of.bbox.x0 <= box.x0 and box.x1 <= of.bbox.x1 and box.y1 <= of.bbox.y1)
        if legend:
            self.assert_clear(main, legend.get_window_extent())

    def assert_clear(self, main: Axes, box: Any) -> None:
        for patch in steps(main).values():
            values, edges, _ = patch.get_data()
            for value, low, high in zip(values, edges, edges[1:]):
                (x0, y), (x1, _) = main.transData.transform([(low, value), (high, value)])
                self.assertFalse(x0 < box.x1 and box.x0 < x1 and y > box.y0)


class Maps(Case):
    def test_mesh(self) -> None:
        main = axes(figure(rows.MAP))
        (mesh,) = main.collections
        cells = mesh.get_array().reshape(1, 2)
        self.same(cells.filled(-1), [[1, 1]])
        corners = mesh.get_coordinates()
        self.same(corners[0, :, 0], [0, 20, 50])
        self.same(corners[:, 0, 1], [0, 2])

    def test_rows_of_the_mesh_are_y(self) -> None:
        sums = iter(range(4 * 5))
        x = ("under", "[0,1)", "[1,2)", "over")
        y = ("under", "[0,10)", "[10,20)", "[20,30)", "over")
        text = "h = histo2d 4 5\n" + "".join(f"  {a} {b} {next(sums)} 1\n" for a in x for b in y)
        found = figure(text)
        (mesh,) = axes(found).collections
        self.same(mesh.get_array().reshape(3, 2), [[6, 11], [7, 12], [8, 13]])
        self.assertEqual(mesh.get_clim(), (0, 13))
        table = [line.split()[-3:] for line in texts(axes(found))[0].splitlines()]
        self.assertEqual(table[1:], [["4", "23", "19"], ["6", "57", "51"], ["0", "15", "15"]])

    def test_cells_without_weight_are_blank(self) -> None:
        text = rows.MAP.replace("[0,20) [0,2) 1 1", "[0,20) [0,2) 0 0").replace(
            "[20,50) [0,2) 1 1", "[20,50) [0,2) 0 2"
        )
        (mesh,) = axes(figure(text)).collections
        self.assertEqual(np.ma.getmaskarray(mesh.get_array()).tolist(), [True, False])

    def test_sums_outside(self) -> None:
        table = [line.split() for line in texts(axes(figure(rows.MAP)))[0].splitlines()]
        self.assertEqual(
            table,
            [
                ["sums", "x", "under", "x", "in", "x", "over"],
                ["y", "over", "0", "1", "0"],
                ["y", "in", "0", "2", "0"],
                ["y", "under", "0", "1", "0"],
            ],
        )

    def test_numbers_in_the_cells(self) -> None:
        main = axes(figure(rows.MAP))
        numbers = {t.get_position(): t.get_text() for t in main.texts if t.get_gid() == "cell"}
        self.assertEqual(numbers, {(10, 1): "1", (35, 1): "1"})
        wide = map_of(10, 10).replace("  [3,4) [3,4) 1 1", "  [3,4) [3,4) " + "7" * 14 + " 1")
        for text, due in ((wide, 0), (map_of(12, 12), 0), (map_of(10, 10), 100)):
            main = axes(figure(text))
            self.assertEqual(len([t for t in main.texts if t.get_gid() == "cell"]), due)

    def test_names_of_axes(self) -> None:
        main = axes(figure(rows.MAP))
        self.assertEqual((main.get_xlabel(), main.get_ylabel()), ("h: x", "h: y"))
        main = axes(figure(rows.MAP, named("energy", "angle")))
        self.assertEqual((main.get_xlabel(), main.get_ylabel()), ("energy", "angle"))

    def test_sums_over_areas_and_a_logarithmic_scale(self) -> None:
        found = figure(rows.MAP, Look(per_width=True, x=Quantity.of("a [GeV]"), y=Quantity.of("b [GeV]")))
        (mesh,) = axes(found).collections
        self.same(mesh.get_array().ravel(), [1 / 40, 1 / 60])
        self.assertEqual(axes(found, "colours").get_ylabel(), "Sum of weights / GeV²")
        text = rows.MAP.replace("[0,20) [0,2) 1 1", "[0,20) [0,2) 100 1").replace("[20,50) [0,2) 1", "[20,50) [0,2) -1")
        (mesh,) = axes(figure(text, Look(log=True))).collections
        self.assertEqual(np.ma.getmaskarray(mesh.get_array()).tolist(), [False, True])
        self.assertEqual(type(mesh.norm).__name__, "LogNorm")
        found = figure(rows.MAP, Look(per_width=True))
        self.assertEqual(axes(found, "colours").get_ylabel(), "Sum of weights / (x width × y width)")

    def test_colour_bar(self) -> None:
        found = figure(rows.MAP)
        self.assertEqual(axes(found, "colours").get_ylabel(), "Sum of weights per cell")
        self.assertEqual(axes(found, "colours").get_ylim(), (0, 1))

    def test_variations_have_figures_and_one_scale(self) -> None:
        varied = rows.MAP.replace("h =", "h[jes:up] =").replace("[0,2) 1 1", "[0,2) 3 3")
        found = figures(rows.MAP + varied)
        self.assertEqual(list(found), ["h", "h.jes.up"])
        said = [texts(axes(part))[1] for part in found.values()]
        self.assertEqual(said, ["nominal", "jes:up"])
        self.assertEqual([axes(part).collections[0].get_clim() for part in found.values()], [(0, 3), (0, 3)])
        self.same(axes(found["h.jes.up"]).collections[0].get_array(), [3, 3])

    def test_sums_of_both_signs_are_centred(self) -> None:
        text = rows.MAP.replace("[20,50) [0,2) 1 1", "[20,50) [0,2) -7 7")
        (mesh,) = axes(figure(text)).collections
        self.assertEqual(mesh.get_clim(), (-7, 7))
        self.assertEqual(mesh.get_cmap().name, style.BOTH_SIGNS)
        self.assertEqual(axes(figure(rows.MAP)).collections[0].get_cmap().name, style.RISING)


class Cutflows(Case):
    def test_bars(self) -> None:
        main = axes(figure(rows.REPORT))
        bars = {bar.get_label(): bar for bar in main.containers}
        self.same([bar.get_width() for bar in bars["passed"]], [3, 1])
        self.same([bar.get_width() for bar in bars["reached"]], [4, 3])
        centres = [bar.get_y() + bar.get_height() / 2 for bar in bars["passed"]]
        np.testing.assert_allclose(centres, [0, 1], atol=1e-9)
        self.assertTrue(main.yaxis_inverted())

    def test_numbers_beside_the_bars(self) -> None:
        self.assertEqual(self.table(rows.REPORT), [
            ["passed", "reached", "eff", "cumulative"],
            ["3", "4", "75.00%", "75.00%"],
            ["1", "3", "33.33%", "25.00%"],
        ])  # fmt: skip
        self.assertEqual(self.table(rows.EMPTY_REPORT)[1], ["0", "0", "none", "none"])

    def table(self, text: str) -> list[list[str]]:
        """The texts beside the axes as rows, from above and from the left. They lie within the figure, and apart."""
        found = figure(text)
        main = axes(found)
        found.draw_without_rendering()
        boxes = {part: part.get_window_extent() for part in main.texts}
        self.assertGreater(min(box.x0 for box in boxes.values()), main.get_window_extent().x1)
        self.assertLess(max(box.x1 for box in boxes.values()), found.bbox.x1)
        for one, other in itertools.combinations(boxes.values(), 2):
            self.assertFalse(one.overlaps(other))
        lines: dict[int, list[str]] = {}
        for part, box in sorted(boxes.items(), key=lambda item: item[1].x1):
            place = main.transData.inverted().transform((0, (box.y0 + box.y1) / 2))[1]
            lines.setdefault(round(place), []).append(part.get_text())
        return [lines[place] for place in sorted(lines)]

    def test_labels(self) -> None:
        main = axes(figure(rows.REPORT))
        self.assertEqual([text.get_text() for text in main.get_yticklabels()], ["a", "b"])
        self.assertEqual(main.get_xlabel(), "r: entries")

    def test_labels_are_no_mathematics(self) -> None:
        for label in ("$\\frac$", "cost $1 to $2", "   ", "x" * 64):
            with self.subTest(label=label):
                found = figure(f"r: {label} pass=1 all=2 eff=50.00 cumulative=50.00\n")
                (text,) = axes(found).get_yticklabels()
                self.assertEqual(text.get_text().replace("\n", ""), label)
                self.assertFalse(text.get_parse_math())
                found.draw_without_rendering()
                box = text.get_window_extent()
                self.assertGreater(box.x0, 0)

    def test_no_filters(self) -> None:
        self.assertEqual(figures(rows.NO_FILTERS), {})


class Takes(Case):
    def test_values_are_counted(self) -> None:
        main = axes(figure(rows.TAKE))
        values, edges, _ = steps(main)["nominal"].get_data()
        filled = {(edges[i], edges[i + 1]): n for i, n in enumerate(values) if n}
        self.assertEqual(filled, {(5, 6): 1, (10, 11): 1, (25, 26): 1, (40, 41): 1})
        self.assertEqual(texts(main), ["values 4"])
        self.assertEqual(len(main.containers), 0)

    def test_truth_values(self) -> None:
        main = axes(figure(rows.TRUTHS))
        self.same(steps(main)["nominal"].get_data().values, [1, 3])
        self.assertEqual([text.get_text() for text in main.get_xticklabels()], ["false", "true"])

    def test_bins_have_round_widths(self) -> None:
        self.assertEqual(building.edges_for([0, 9], 40), tuple(range(11)))
        self.assertEqual(building.edges_for([-3, 96], 40), tuple(range(-5, 105, 5)))
        self.assertEqual(building.edges_for([7, 7], 40), (7, 8))
        self.assertEqual(building.edges_for([], 40), (0, 1))
        self.assertEqual(building.edges_for([0, 99], 1), (0, 100))
        edges = building.edges_for([-(2**63), 2**63 - 1], 40)
        self.assertLessEqual(edges[0], -(2**63))
        self.assertGreater(edges[-1], 2**63 - 1)
        self.assertLessEqual(len(edges), 42)

    def test_number_of_bins(self) -> None:
        text = "t = " + " ".join(str(i) for i in range(1000)) + "\n"
        values = steps(axes(figure(text, Look(bins=10))))["nominal"].get_data().values
        self.same(values, [100] * 10)

    def test_variations(self) -> None:
        found = figure("t = 1 1 2\nt[a:b] = 2 3\n")
        self.same(steps(axes(found))["nominal"].get_data().values, [2, 1, 0])
        self.same(steps(axes(found))["a:b"].get_data().values, [0, 1, 1])
        self.same(steps(axes(found, "ratio"))["a:b"].get_data().values, [0, 1, math.nan])

    def test_no_values(self) -> None:
        self.same(steps(axes(figure("t = none\n")))["nominal"].get_data().values, [0])


class Labels(unittest.TestCase):
    def test_mathematical_text_that_cannot_be_drawn(self) -> None:
        self.assertIsNone(frames.fault_of_text("$p_T$ [MeV]"))
        self.assertIsNone(frames.fault_of_text("5 $"))
        self.assertIsNotNone(frames.fault_of_text("$\\nothing$"))


if __name__ == "__main__":
    unittest.main()
