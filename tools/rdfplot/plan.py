"""Which pictures are drawn of which results, and what each shows."""

from __future__ import annotations

from collections.abc import Callable, Iterator, Sequence
from dataclasses import dataclass
from fractions import Fraction
from typing import Union

from . import building, efficiency
from .building import Input, Unfit
from .charts import Chart, Look
from .efficiency import Pair
from .read import Histo1D, Histo2D, Report, Result, Values

NOMINAL = "nominal"
LookOf = Callable[..., Look]  # of a name, and of the result whose x axis it has


@dataclass(frozen=True)
class Output:
    """The results of one input, and what the legend calls it."""

    label: str
    results: tuple[Result, ...]
    factor: Fraction = Fraction(1)  # of its sums

    def named(self, name: str) -> Result | None:
        return next((result for result in self.results if result.name == name), None)


@dataclass(frozen=True)
class Map:
    """One pass of a Histo2D; `beside` are all of its passes, which share the scale of colours."""

    title: str
    histo: Histo2D
    beside: tuple[Histo2D, ...]
    said: str
    look: Look


@dataclass(frozen=True)
class Cutflow:
    """A Report of named filters."""

    title: str
    report: Report
    look: Look


@dataclass(frozen=True)
class Picture:
    """What a picture shows, and the name of its file without the ending."""

    name: str
    shown: Union[Chart, Map, Cutflow]


def drawable(result: Result) -> bool:
    """Whether the result is drawn without being asked for by name."""
    value = result.nominal
    return isinstance(value, (Histo1D, Histo2D)) or (isinstance(value, Report) and bool(value.steps))


def of_result(result: Result, look: Look, label: str = NOMINAL) -> Iterator[Picture]:
    """The result's pictures. Values are counted into a histogram; a report of no filters has no picture."""
    value = result.nominal
    if isinstance(value, Histo2D):
        yield from _maps(result, look)
    elif isinstance(value, Report):
        if value.steps:
            yield Picture(result.name, Cutflow(result.name, value, look))
    else:
        yield over_each_other(result.name, [Input(label, result)], look)


def over_each_other(name: str, inputs: Sequence[Input], look: Look) -> Picture:
    """One picture of a Histo1D or a Take of several inputs."""
    if all(isinstance(each.result.nominal, Values) for each in inputs):
        return Picture(name, building.values(name, inputs, look))
    return Picture(name, building.histogram(name, inputs, look))


def _maps(result: Result, look: Look) -> Iterator[Picture]:
    passes = {"": result.nominal, **result.variations}
    maps = {tag: value for tag, value in passes.items() if isinstance(value, Histo2D)}
    for tag, histo in maps.items():
        said = (tag or NOMINAL) if len(maps) > 1 else ""
        name = f"{result.name}.{tag.replace(':', '.')}" if tag else result.name
        yield Picture(name, Map(result.name, histo, tuple(maps.values()), said, look))


def pictures(
    outputs: Sequence[Output], chosen: Sequence[str], efficiencies: Sequence[tuple[str, str]], look_of: LookOf
) -> Iterator[Picture]:
    """All pictures of the results that are chosen, in the order of the first output, then the efficiencies."""
    for name in chosen:
        found = [(output, output.named(name)) for output in outputs]
        inputs = [Input(output.label, result, output.factor) for output, result in found if result is not None]
        if len(outputs) == 1:
            yield from of_result(inputs[0].result, look_of(name), outputs[0].label)
        else:
            yield over_each_other(name, inputs, look_of(name))
    for passed, reached in efficiencies:
        name = efficiency_name(passed, reached)
        pairs = [Pair(o.label, _due(o, passed), _due(o, reached)) for o in outputs]
        yield Picture(name, efficiency.efficiency(name, pairs, look_of(name, passed)))


def efficiency_name(passed: str, reached: str) -> str:
    """The name of the picture of an efficiency."""
    return f"{passed}_of_{reached}"


def shared(outputs: Sequence[Output], taken: Sequence[str]) -> list[str]:
    """The results that are drawn: of several outputs the histograms of one axis, and Takes, that all of them have."""
    first = outputs[0]
    if len(outputs) == 1:
        return [r.name for r in first.results if drawable(r) or r.name in taken]
    names = [r.name for r in first.results if isinstance(r.nominal, Histo1D) or r.name in taken]
    return [name for name in names if all(output.named(name) for output in outputs)]


def _due(output: Output, name: str) -> Result:
    found = output.named(name)
    if found is None:
        raise Unfit(f"--efficiency: {output.label} has no result {name}")
    return found
