"""How the pictures look: ticks inside on all four sides, labels at the axes' ends, colours by Okabe and Ito."""

from __future__ import annotations

from collections.abc import Iterator
from contextlib import contextmanager
from typing import Any

import matplotlib

BLACK = "#000000"
PASSED = "#56B4E9"
REACHED = "#dddddd"
ERROR_BAND = "#c4c4c4"
SPAN = "#56B4E9"

# Okabe and Ito's colours without black, which the nominal result has, and without yellow, which is pale on white.
COLOURS = ("#0072B2", "#D55E00", "#009E73", "#CC79A7", "#E69F00", "#56B4E9")
DASHES: tuple[tuple[float, ...], ...] = (
    (5, 1.6),
    (1.2, 1.2),
    (6, 1.6, 1.2, 1.6),
    (9, 2.5),
    (4, 1.2, 1.2, 1.2, 1.2, 1.2),
)

# The map for sums of at least 0, and the one for sums of both signs, white at 0; both fit for the colour-blind.
RISING = "viridis"
BOTH_SIGNS = "PuOr_r"

TEXT = 14.0
SMALL = 11.0
TINY = 9.5

SETTINGS: dict[str, Any] = {
    "font.family": ["DejaVu Sans"],
    "font.size": TEXT,
    "axes.labelsize": TEXT + 1,
    "axes.linewidth": 1.1,
    "axes.formatter.limits": (-4, 6),
    "axes.formatter.use_mathtext": True,
    "xaxis.labellocation": "right",
    "yaxis.labellocation": "top",
    "legend.frameon": False,
    "legend.fontsize": SMALL + 1,
    "legend.handlelength": 2.6,
    "figure.dpi": 100,
    "savefig.dpi": 150,
    "pdf.fonttype": 42,
    **{
        f"{side}tick.{key}": value
        for side in "xy"
        for key, value in {
            "direction": "in",
            "labelsize": TEXT - 1,
            "minor.visible": True,
            "major.size": 8,
            "minor.size": 4,
            "major.width": 1.1,
            "minor.width": 0.9,
            "major.pad": 8,
        }.items()
    },
    "xtick.top": True,
    "ytick.right": True,
}


def line(group: int, side: int) -> dict[str, Any]:
    """Colour by the group, black below 0, and dashes by the side, none below 0; from group 6 on the dashes shift."""
    colour = COLOURS[group % len(COLOURS)] if group >= 0 else BLACK
    shifted = side + 2 * (max(group, 0) // len(COLOURS))
    dashes: Any = (0, DASHES[shifted % len(DASHES)]) if side >= 0 else "solid"
    return {"color": colour, "linestyle": dashes, "linewidth": 1.7 if side >= 0 else 1.5}


def band(of_error: bool) -> dict[str, Any]:
    """Grey for the statistical error, blue for what variations span."""
    return {"color": ERROR_BAND if of_error else SPAN, "alpha": 0.75 if of_error else 0.45, "linewidth": 0}


@contextmanager
def applied() -> Iterator[None]:
    """Within it pictures have this look, whatever the user's own settings are. Draw and write within it."""
    with matplotlib.rc_context():
        matplotlib.rcdefaults()
        matplotlib.rcParams.update(SETTINGS)
        yield
