"""The figure of a picture."""

from __future__ import annotations

from matplotlib.figure import Figure

from . import cutflows, histograms, maps
from .charts import Chart
from .plan import Map, Picture


def figure(picture: Picture) -> Figure:
    """Draws what the picture shows."""
    shown = picture.shown
    if isinstance(shown, Chart):
        return histograms.draw(shown)
    if isinstance(shown, Map):
        return maps.draw(shown.title, shown.histo, maps.norm_of(shown.beside, shown.look), shown.said, shown.look)
    return cutflows.draw(shown.title, shown.report, shown.look)
