"""What an axis shows: a name, a unit, and the factor by which the numbers of the output are multiplied."""

from __future__ import annotations

import re
from dataclasses import dataclass
from decimal import Decimal
from fractions import Fraction

_WITH_UNIT = re.compile(r"(.*?)\s*\[([^\[\]]*)\]\s*", re.S)
_NUMBER = re.compile(r"-?[0-9]+(?:\.[0-9]+)?(?:[eE]-?[0-9]{1,3})?|-?[0-9]+/[0-9]+")
_POWERS = {"n": -3, "µ": -2, "u": -2, "m": -1, "": 0, "k": 1, "M": 2, "G": 3, "T": 4, "P": 5}
_PREFIXED = re.compile(r"([nµumkMGTP]?)(eV|m|s|g|A|V|Hz)")


@dataclass(frozen=True)
class Quantity:
    """A name that is None is the result's. `untold` is the part of the factor that no unit tells."""

    name: str | None = None
    unit: str | None = None
    factor: Fraction = Fraction(1)
    untold: Fraction = Fraction(1)

    @staticmethod
    def of(text: str) -> Quantity:
        """That of `NAME [UNIT]`, where either may be missing."""
        match = _WITH_UNIT.fullmatch(text)
        if match is None:
            return Quantity(text.strip() or None)
        return Quantity(match[1].strip() or None, match[2].strip() or None)

    def scaled(self, factor: Fraction, unit: str | None = None) -> Quantity:
        """With its numbers multiplied, in the unit that is given or that follows."""
        told = unit is not None or self.unit is not None
        return Quantity(
            self.name,
            unit or scaled_unit(self.unit, factor),
            self.factor * factor,
            self.untold if told else self.untold * factor,
        )

    def shown(self, text: str) -> Quantity:
        """With this text at the axis, as it stands: it names the unit that is drawn, if it names one."""
        given = Quantity.of(text)
        return Quantity(given.name or "", given.unit or self.unit, self.factor)

    def label(self, usual: str) -> str:
        """What stands at the axis; `usual` is the name where there is none."""
        name = usual if self.name is None else self.name
        if self.unit is not None:
            return f"{name} [{self.unit}]".strip()
        return name if self.untold == 1 else f"{spelled(self.untold)} × {name}"


def number_of(text: str) -> Fraction | None:
    """The number other than 0 that a text spells as a decimal or a fraction; None where it spells none."""
    if not _NUMBER.fullmatch(text):
        return None
    try:
        return Fraction(text) or None
    except ZeroDivisionError:
        return None


def scaled_unit(unit: str | None, factor: Fraction) -> str | None:
    """The unit of numbers that were multiplied: MeV by 1/1000 is GeV, and what is no power of 1000 is spelled out."""
    if unit is None or factor == 1:
        return unit
    number = number_of(unit)
    if number is not None:
        return None if number == factor else spelled(number / factor)
    match = _PREFIXED.fullmatch(unit)
    for prefix, power in _POWERS.items():
        if match and Fraction(1000) ** (power - _POWERS[match[1]]) == 1 / factor:
            return prefix + match[2]
    return f"{spelled(1 / factor)} {unit}"


def spelled(number: Fraction) -> str:
    """The number as a decimal where it has a short one, else as a fraction."""
    if 10**12 % number.denominator == 0:
        text = format(Decimal(number.numerator) / Decimal(number.denominator), "f")
        return text.rstrip("0").rstrip(".") if "." in text else text
    return str(number)
