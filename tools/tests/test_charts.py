"""What a picture shows, in numbers: widths, factors, bands, efficiencies, several inputs."""

from __future__ import annotations

import math
import unittest
from dataclasses import replace
from fractions import Fraction

from rdfplot import building, efficiency
from rdfplot.building import Input, Unfit
from rdfplot.charts import Chart, Look
from rdfplot.efficiency import Pair, wilson
from rdfplot.quantities import Quantity, scaled_unit
from rdfplot.read import Result, read

from . import rows

EVEN = "h = histo1d 4\n  under 1 1\n  [0,1000) 7 7\n  [1000,2000) 4 4\n  over 2 2\n"


def result(text: str) -> Result:
    return read(text.encode())[0]


def chart(text: str, look: Look = Look()) -> Chart:
    return building.histogram("h", [Input("nominal", result(text))], look)


def counts(name: str, *cells: int) -> str:
    """A histogram of counts with bins of width 1."""
    lines = [f"  [{i},{i + 1}) {cell} {cell}\n" for i, cell in enumerate(cells)]
    return f"{name} = histo1d {len(cells) + 2}\n  under 3 3\n{''.join(lines)}  over 5 5\n"


class Widths(unittest.TestCase):
    def test_by_itself_where_bins_differ(self) -> None:
        found = chart(rows.WEIGHTED)  # bins of 10 and 15 with -3 and 1
        self.assertEqual(found.main.lines[0].values, (-0.3, 1 / 15))
        self.assertEqual(found.main.lines[0].highs, (0.0, 2 / 15))
        self.assertTrue(found.per_width)
        self.assertEqual(found.main.y_label, "Sum of weights / bin width")
        self.assertEqual(chart(EVEN).main.lines[0].values, (7, 4))
        self.assertEqual(chart(EVEN).main.y_label, "Sum of weights per bin")

    def test_asked_for_and_refused(self) -> None:
        found = chart(EVEN, Look(per_width=True))
        self.assertEqual(found.main.lines[0].values, (0.007, 0.004))
        found = chart(rows.WEIGHTED, Look(per_width=False))
        self.assertEqual((found.main.lines[0].values, found.main.y_label), ((-3, 1), "Sum of weights per bin"))

    def test_the_bins_outside_have_the_width_with_which_they_are_drawn(self) -> None:
        found = chart(rows.WEIGHTED, Look(flow=True))
        edges, values = found.bins.edges, found.main.lines[0].values
        self.assertAlmostEqual(values[-1] * (edges[-1] - edges[-2]), 3)

    def test_said_on_the_axis_in_its_unit(self) -> None:
        gev = Quantity.of("mass [MeV]").scaled(Fraction(1, 1000))
        for look, said in (
            (Look(x=gev), "Sum of weights / GeV"),
            (Look(x=gev, y=Quantity("Pairs")), "Pairs / GeV"),
            (Look(x=gev, y=Quantity("Pairs per bin")), "Pairs / GeV"),
            (Look(y=Quantity("Pairs")), "Pairs / bin width"),
        ):
            self.assertEqual(chart(rows.WEIGHTED, look).main.y_label, said)
        self.assertEqual(chart(EVEN, Look(x=gev)).main.y_label, "Sum of weights / GeV")
        self.assertEqual(chart(EVEN, Look(x=Quantity.of("m [MeV]"))).main.y_label, "Sum of weights / 1000 MeV")

    def test_ratios_are_those_of_the_sums(self) -> None:
        ratio = chart(rows.VARIED).ratio
        assert ratio is not None
        self.assertEqual(ratio.lines[0].values[0], 0.5)


class Scales(unittest.TestCase):
    def test_edges_and_sums(self) -> None:
        found = chart(EVEN, Look(x=Quantity().scaled(Fraction(1, 1000), "GeV"), y=Quantity().scaled(Fraction(1, 10))))
        self.assertEqual(found.bins.edges, (0, 1, 2))
        self.assertEqual(found.main.lines[0].values, (0.7, 0.4))
        self.assertEqual(found.x_label, "h [GeV]")
        self.assertEqual(found.corner, "underflow 0.1 ± 0.1\noverflow 0.2 ± 0.141")

    def test_units_follow(self) -> None:
        for unit, factor, due in (
            ("MeV", "1/1000", "GeV"),
            ("GeV", "1000", "MeV"),
            ("eV", "1/1000000", "MeV"),
            ("mm", "1/1000", "m"),
            ("MeV", "1/10", "10 MeV"),
            ("ticks", "1/25", "25 ticks"),
            ("0.001", "1/1000", None),
            (None, "1/1000", None),
        ):
            self.assertEqual(scaled_unit(unit, Fraction(factor)), due)

    def test_a_factor_that_no_unit_tells_is_told(self) -> None:
        thousandth = Fraction(1, 1000)
        self.assertEqual(Quantity("eta").scaled(thousandth).label("h"), "0.001 × eta")
        self.assertEqual(Quantity().scaled(thousandth).label("h"), "0.001 × h")
        self.assertEqual(Quantity.of("eta [0.001]").scaled(thousandth).label("h"), "eta")
        self.assertEqual(Quantity("pt").scaled(thousandth, "GeV").label("h"), "pt [GeV]")

    def test_a_text_stands_as_it_is(self) -> None:
        gev = Quantity("pt", "MeV").scaled(Fraction(1, 1000))
        self.assertEqual(gev.shown("$p_T$ [GeV]").label("h"), "$p_T$ [GeV]")
        self.assertEqual(gev.shown("$p_T$").label("h"), "$p_T$ [GeV]")
        self.assertEqual(Quantity().scaled(Fraction(1, 1000)).shown("$p_T$").label("h"), "$p_T$")


class Bands(unittest.TestCase):
    TEXT = counts("h", 100) + counts("h[a:down]", 97) + counts("h[a:up]", 103) + counts("h[b:one]", 104)

    def test_envelope(self) -> None:
        (band,) = chart(self.TEXT, Look(band="envelope")).main.bands
        self.assertEqual((band.lows, band.highs), ((97,), (104,)))

    def test_quadrature(self) -> None:
        (band,) = chart(self.TEXT, Look(band="quadrature")).main.bands
        self.assertEqual((band.lows, band.highs), ((97,), (105,)))  # 3 and 4 make 5; below there is 3 alone

    def test_ratio(self) -> None:
        ratio = chart(self.TEXT, Look(band="quadrature")).ratio
        assert ratio is not None
        error, band = ratio.bands
        self.assertEqual((error.lows, error.highs), ((0.9,), (1.1,)))
        self.assertAlmostEqual(band.highs[0], 1.05)
        self.assertEqual(ratio.lines, ())


class Inputs(unittest.TestCase):
    def two(self, look: Look = Look(), factor: str = "1") -> Chart:
        one, other = result(counts("h", 100, 16, 0)), result(counts("h", 50, 4, 9))
        return building.histogram("h", [Input("mc", one, Fraction(factor)), Input("data", other)], look)

    def test_lines_with_errors(self) -> None:
        found = self.two()
        self.assertEqual([line.label for line in found.main.lines], ["mc", "data"])
        self.assertEqual(found.main.lines[1].values, (50, 4, 9))
        self.assertEqual(found.main.lines[1].highs, (50 + math.sqrt(50), 6, 12))
        self.assertEqual(found.corner, "")

    def test_ratio_to_the_first(self) -> None:
        ratio = self.two().ratio
        assert ratio is not None
        (line,) = ratio.lines
        self.assertEqual(line.values[:2], (0.5, 0.25))
        self.assertTrue(math.isnan(line.values[2]))
        self.assertEqual(line.highs[1], 0.375)  # 4 + 2 of 16
        self.assertEqual((ratio.bands[0].lows[:2], ratio.bands[0].highs[:2]), ((0.9, 0.75), (1.1, 1.25)))
        self.assertEqual(ratio.y_label, "Ratio to mc")

    def test_factor(self) -> None:
        found = self.two(factor="1/4")
        self.assertEqual(found.main.lines[0].values, (25, 4, 0))
        self.assertEqual(found.main.lines[0].highs[0], 27.5)  # 10 / 4
        assert found.ratio is not None
        self.assertEqual(found.ratio.lines[0].values[:2], (2, 1))
        self.assertEqual(found.ratio.bands[0].highs[0], 1.1)

    def test_points_are_black(self) -> None:
        looks = {line.label: line.stroke for line in self.two(Look(points=frozenset(["data"]))).main.lines}
        self.assertEqual((looks["data"].points, looks["data"].group), (True, -1))
        self.assertEqual((looks["mc"].points, looks["mc"].group), (False, 0))

    def test_other_edges(self) -> None:
        with self.assertRaises(Unfit):
            building.histogram("h", [Input("a", result(counts("h", 1))), Input("b", result(counts("h", 1, 2)))], Look())

    def test_values_have_common_bins(self) -> None:
        inputs = [Input("a", result("t = 1 1 2\n")), Input("b", result("t = 4\n"))]
        found = building.values("t", inputs, Look())
        self.assertEqual([line.values for line in found.main.lines], [(2, 1, 0, 0), (0, 0, 0, 1)])


class Efficiencies(unittest.TestCase):
    def pair(self, passed: str, reached: str) -> Pair:
        return Pair("nominal", result(passed), result(reached))

    def test_wilson_by_its_definition(self) -> None:
        """The ends are where the share is one standard deviation of the binomial from the true value."""
        for reached in (1, 2, 7, 100, 10**6):
            for passed in {0, 1, reached // 3, reached - 1, reached}:
                for end in wilson(passed, reached):
                    distance = (passed / reached - end) ** 2 * reached
                    self.assertAlmostEqual(distance, end * (1 - end), places=9)

    def test_points(self) -> None:
        found = efficiency.efficiency("e", [self.pair(counts("p", 0, 3, 4), counts("q", 0, 4, 4))], Look())
        (line,) = found.main.lines
        self.assertTrue(math.isnan(line.values[0]))
        self.assertEqual(line.values[1:], (0.75, 1.0))
        self.assertEqual(line.highs[2], 1.0)
        self.assertAlmostEqual(line.lows[2], 0.8)  # 4 of 4: n / (n + 1)
        self.assertIsNone(found.ratio)

    def test_bins_outside(self) -> None:
        found = efficiency.efficiency("e", [self.pair(counts("p", 1), counts("q", 2))], Look(flow=True))
        self.assertEqual(found.main.lines[0].values, (1.0, 0.5, 1.0))

    def test_variations(self) -> None:
        passed = counts("p", 2) + counts("p[a:up]", 3)
        found = efficiency.efficiency("e", [self.pair(passed, counts("q", 4))], Look())
        self.assertEqual([(line.label, line.values) for line in found.main.lines[1:]], [("a:up", (0.75,))])

    def test_refused(self) -> None:
        for passed, reached in (
            (counts("p", 5), counts("q", 4)),
            (rows.WEIGHTED, rows.WEIGHTED),
            (counts("p", 1), counts("q", 1, 1)),
            ("p = 3\n", counts("q", 1)),
        ):
            with self.assertRaises(Unfit):
                efficiency.efficiency("e", [self.pair(passed, reached)], Look())

    def test_several_inputs(self) -> None:
        pairs = [
            replace(self.pair(counts("p", 2), counts("q", 4)), label="data"),
            replace(self.pair(counts("p", 3), counts("q", 4)), label="mc"),
        ]
        found = efficiency.efficiency("e", pairs, Look())
        assert found.ratio is not None
        self.assertEqual(found.ratio.lines[0].values, (1.5,))


if __name__ == "__main__":
    unittest.main()
