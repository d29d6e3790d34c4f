"""How each result is shown: its axes' names, units and factors, from the options and from the script."""

from __future__ import annotations

from collections.abc import Mapping
from dataclasses import dataclass, field, replace
from fractions import Fraction

from .charts import Look
from .quantities import Quantity
from .script import Columns, Script

Scales = Mapping[str, tuple[Fraction, "str | None"]]


@dataclass(frozen=True)
class Looks:
    """`labels` and `scales` go by names of results and of columns; `labels2` and `scales2` are those of y axes."""

    usual: Look = Look()
    script: Script | None = None
    labels: Mapping[str, str] = field(default_factory=dict)
    labels2: Mapping[str, str] = field(default_factory=dict)
    scales: Scales = field(default_factory=dict)
    scales2: Scales = field(default_factory=dict)

    def of(self, name: str, like: str | None = None) -> Look:
        """The look of a result, or of a picture whose x axis is that of another result."""
        columns = self._columns(like or name)
        x_column = columns.axes[0] if columns and columns.axes else None
        x = self._quantity([name, like, x_column], x_column, self.labels, self.scales)
        look = replace(self.usual, x=x, counted=_counted(columns))
        if columns and len(columns.axes) > 1:
            y = self._quantity([name, columns.axes[1]], columns.axes[1], self.labels2, self.scales2)
            return replace(look, y=y, z=self._weights(columns))
        sums = Quantity() if like else self._weights(columns)
        return replace(look, y=self._asked(sums, [name], self.labels2, self.scales2))

    def texts(self) -> list[str]:
        """All texts that may be drawn as mathematical ones."""
        told = [quantity.name or "" for quantity in self.script.told.values()] if self.script else []
        return [*self.labels.values(), *self.labels2.values(), *told]

    def _columns(self, name: str) -> Columns | None:
        return self.script.results.get(name) if self.script else None

    def _quantity(
        self, names: list[str | None], column: str | None, labels: Mapping[str, str], scales: Scales
    ) -> Quantity:
        """That of a column; what the options say of a result goes before what they say of a column."""
        told = self.script.quantity(column) if self.script and column else Quantity()
        by_column = {key: text for key, text in self.labels.items() if key == column}
        scaled_column = {key: scale for key, scale in self.scales.items() if key == column}
        return self._asked(told, names, {**by_column, **labels}, {**scaled_column, **scales})

    def _weights(self, columns: Columns | None) -> Quantity:
        """The sums of a histogram, in the unit of its weights."""
        if columns is None or columns.weight is None or self.script is None:
            return Quantity()
        unit = self.script.quantity(columns.weight).unit
        return self._asked(Quantity(None, unit), [columns.weight], {}, self.scales)

    @staticmethod
    def _asked(quantity: Quantity, names: list[str | None], labels: Mapping[str, str], scales: Scales) -> Quantity:
        """With what the options say of the first of these names of which they say anything."""
        known = [name for name in names if name is not None]
        for name in known:
            if name in scales:
                quantity = quantity.scaled(*scales[name])
                break
        text = next((labels[name] for name in known if name in labels), None)
        return quantity if text is None else quantity.shown(text)


def _counted(columns: Columns | None) -> str:
    """What the bins of a histogram hold, where the script tells."""
    if columns is None or not columns.kind.startswith("Histo"):
        return "Sum of weights"
    return "Entries" if columns.weight is None else "Sum of weights"
