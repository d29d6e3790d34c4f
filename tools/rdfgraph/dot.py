"""Writes a graph in Graphviz's language."""

from __future__ import annotations

import textwrap
from collections.abc import Iterable

from .booked import Booked, Graph, Made

FONT = "DejaVu Sans"
SHAPES = {"Filter": ("hexagon", "#d9e8f5"), "Vary": ("octagon", "#fdf0e4")}
OTHER = ("ellipse", "#eeeeee")  # Define, Redefine, Alias
RESULT, PRINTED = "#dcefe0", "#a9dcb4"
# Okabe and Ito's colours that are dark enough for text on white.
COLOURS = ("#0072B2", "#D55E00", "#007a59", "#a8447f", "#8a6100", "#333333")
WIDE = 36  # characters of a line


def text(graph: Graph, table: str) -> str:
    """One digraph: the table, the nodes below it, and the results in a box for each loop."""
    colours = {name: COLOURS[place % len(COLOURS)] for place, name in enumerate(graph.variations)}
    lines = [
        "digraph script {",
        f'  graph [rankdir=TB, nodesep=0.25, ranksep=0.35, fontname="{FONT}", fontsize=12];',
        f'  node [fontname="{FONT}", fontsize=11, style=filled, color="#666666", margin="0.08,0.05"];',
        '  edge [color="#666666", arrowsize=0.7];',
        f'  "df" [shape=cylinder, fillcolor="#f5f0d8", label=<{_bold(table)}>];',
    ]
    for node in graph.nodes:
        lines += [f"  {_node(node, colours)}", f'  "{node.parent}" -> "{node.name}";']
    for number, (printed, results) in enumerate(graph.loops, 1):
        said = f"loop {number}, run by Print({printed})"
        lines += _box(f"loop{number}", said, results, colours)
    if graph.unfilled:
        lines += _box("unfilled", "no loop: nothing after them is printed", graph.unfilled, colours)
    return "\n".join([*lines, "}"]) + "\n"


def _node(node: Made, colours: dict[str, str]) -> str:
    shape, fill = SHAPES.get(node.method, OTHER)
    parts = [f"{_small(node.name)}<BR/>{node.method} {_bold(node.title)}".rstrip()]
    parts += [_small(each, "#000000") for each in node.texts]
    parts += _varied(node.variations, colours)
    return f'"{node.name}" [shape={shape}, fillcolor="{fill}", label=<{"<BR/>".join(parts)}>];'


def _box(name: str, said: str, results: Iterable[Booked], colours: dict[str, str]) -> list[str]:
    """The results of one loop in a frame, and below it the edges that lead to them."""
    booked = list(results)
    lines = [f"  subgraph cluster_{name} {{", f'    label="{said}"; labelloc=b; style=rounded; color="#888888";']
    lines += [f"    {_result(each, colours)}" for each in booked]
    return [*lines, "  }", *(f'  "{each.parent}" -> "{each.name}";' for each in booked)]


def _result(result: Booked, colours: dict[str, str]) -> str:
    parts = [f"{_bold(result.name)}<BR/>{result.method}", _small(result.title, "#000000")]
    said = [f"{result.passes} passes"] if result.passes > 1 else []
    said += ["watched"] if result.watched else []
    said += [] if result.printed else ["not printed"]
    parts += [_small(", ".join(said))] if said else []
    parts += _varied(result.variations, colours)
    fill = PRINTED if result.printed else RESULT
    return f'"{result.name}" [shape=box, fillcolor="{fill}", label=<{"<BR/>".join(p for p in parts if p)}>];'


def _varied(names: Iterable[str], colours: dict[str, str]) -> list[str]:
    """The variations on which it depends, each in its colour."""
    said = [f'<FONT COLOR="{colours[name]}">{_plain(name)}</FONT>' for name in names]
    rows = [", ".join(said[at : at + 3]) for at in range(0, len(said), 3)]
    return [f'<FONT POINT-SIZE="10">{"~ " if place == 0 else ""}{row}</FONT>' for place, row in enumerate(rows)]


def _bold(words: str) -> str:
    return "<BR/>".join(f"<B>{_plain(line)}</B>" for line in textwrap.wrap(words, WIDE)) if words.strip() else ""


def _small(words: str, colour: str = "#555555") -> str:
    rows = textwrap.wrap(words, WIDE, break_on_hyphens=False)
    return "<BR/>".join(f'<FONT POINT-SIZE="10" COLOR="{colour}">{_plain(row)}</FONT>' for row in rows)


def _plain(words: str) -> str:
    for mark, entity in (("&", "&amp;"), ("<", "&lt;"), (">", "&gt;"), ('"', "&quot;")):
        words = words.replace(mark, entity)
    return words
