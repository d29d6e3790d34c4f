"""Names, units and factors from the options and from a script."""

from __future__ import annotations

import unittest
from fractions import Fraction

from rdfplot import script, words
from rdfplot.looks import Looks
from rdfplot.script import BadScript

SCRIPT = b"""\
# Muons: a test. pt: no comment of its own line
# pt: Muon $p_T$ [MeV]
#w:Weight [0.001]
  #  lead :  first  muon
# other: no column
n = df.Define("lead", "pt")   # lead: not on a line of its own
h = n.Histo1D([0, 1], "pt", "w")
k = n.Histo1D([0, 1], "lead")
m = n.Histo2D([0, 1], [0, 1], "pt", "lead", "w")
t = n.Take("lead")
r = df.Report()
c = df.Count()
Print(h)
"""
TOLD = script.read(SCRIPT)
THOUSANDTH = (Fraction(1, 1000), None)


class Scripts(unittest.TestCase):
    def test_columns_of_results(self) -> None:
        found = {name: (columns.kind, columns.axes, columns.weight) for name, columns in TOLD.results.items()}
        self.assertEqual(found, {
            "h": ("Histo1D", ("pt",), "w"),
            "k": ("Histo1D", ("lead",), None),
            "m": ("Histo2D", ("pt", "lead"), "w"),
            "t": ("Take", ("lead",), None),
            "r": ("Report", (), None),
            "c": ("Count", (), None),
        })  # fmt: skip

    def test_comments(self) -> None:
        self.assertEqual(set(TOLD.told), {"pt", "w", "lead"})
        self.assertEqual((TOLD.told["pt"].name, TOLD.told["pt"].unit), ("Muon $p_T$", "MeV"))
        self.assertEqual((TOLD.told["lead"].name, TOLD.told["lead"].unit), ("first  muon", None))

    def test_a_script_that_is_refused(self) -> None:
        with self.assertRaisesRegex(BadScript, "script refused at line 1 place 7: S1 Syntax"):
            script.read(b"n = df.Cuont()\n")


class Axes(unittest.TestCase):
    def label(self, looks: Looks, name: str, axis: str = "x") -> str:
        return getattr(looks.of(name), axis).label("none")

    def test_from_the_script(self) -> None:
        looks = Looks(script=TOLD)
        self.assertEqual(self.label(looks, "h"), "Muon $p_T$ [MeV]")
        self.assertEqual(self.label(looks, "k"), "first  muon")
        self.assertEqual([self.label(looks, "m", axis) for axis in "xy"], ["Muon $p_T$ [MeV]", "first  muon"])
        self.assertEqual((looks.of("k").counted, looks.of("h").counted), ("Entries", "Sum of weights"))
        self.assertEqual(self.label(looks, "h", "y"), "none [0.001]")

    def test_scaled_by_column(self) -> None:
        looks = Looks(script=TOLD, scales={"pt": THOUSANDTH, "w": THOUSANDTH})
        self.assertEqual(self.label(looks, "h"), "Muon $p_T$ [GeV]")
        self.assertEqual(self.label(looks, "m"), "Muon $p_T$ [GeV]")
        self.assertEqual(looks.of("h").x.factor, Fraction(1, 1000))
        self.assertEqual((self.label(looks, "h", "y"), looks.of("h").y.factor), ("none", Fraction(1, 1000)))
        self.assertEqual(looks.of("k").x.factor, 1)

    def test_the_second_axis_of_a_map(self) -> None:
        looks = Looks(script=TOLD, scales={"lead": (Fraction(1, 10), "cm")}, labels2={"m": "y"})
        self.assertEqual((self.label(looks, "m", "y"), looks.of("m").y.factor), ("y [cm]", Fraction(1, 10)))
        self.assertEqual(looks.of("m").x.factor, 1)

    def test_options_of_a_result_go_first(self) -> None:
        looks = Looks(script=TOLD, scales={"pt": THOUSANDTH, "h": (Fraction(1, 2), None)}, labels={"h": "a [b]"})
        self.assertEqual((self.label(looks, "h"), looks.of("h").x.factor), ("a [b]", Fraction(1, 2)))

    def test_without_a_script(self) -> None:
        looks = Looks(scales={"h": (Fraction(1, 1000), "GeV")}, labels2={"h": "Pairs"})
        self.assertEqual((self.label(looks, "h"), self.label(looks, "h", "y")), ("none [GeV]", "Pairs"))

    def test_an_efficiency_has_the_axis_of_its_first_result(self) -> None:
        looks = Looks(script=TOLD, scales={"pt": THOUSANDTH}, labels2={"h_of_k": "share"})
        look = looks.of("h_of_k", "h")
        self.assertEqual((look.x.label("h"), look.y.label("Efficiency")), ("Muon $p_T$ [GeV]", "share"))


class Words(unittest.TestCase):
    def test_scales(self) -> None:
        found = words.scales("--scale", ["a=0.001:GeV", "b=1/3", "c=1e3"], "abc")
        self.assertEqual(found, {"a": (Fraction(1, 1000), "GeV"), "b": (Fraction(1, 3), None), "c": (1000, None)})
        for pair in ("a=", "a=x", "a=0", "a=-1", "a=1:", "a=1/0", "a=inf", "a", "q=1"):
            with self.assertRaises(words.Faulty):
                words.scales("--scale", [pair], "abc")

    def test_factors_of_inputs(self) -> None:
        self.assertEqual(words.factors("--times", ["a=b=1/2"], ["a=b"]), {"a=b": Fraction(1, 2)})
        for pair in ("a=1", "a=b=0", "a=b=x"):
            with self.assertRaises(words.Faulty):
                words.factors("--times", [pair], ["a=b"])


if __name__ == "__main__":
    unittest.main()
