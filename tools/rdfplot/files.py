"""Writes pictures. The files hold no time, so the same input gives the same bytes with the same matplotlib."""

from __future__ import annotations

from collections.abc import Iterable
from pathlib import Path
from typing import Any

from matplotlib.backends.backend_pdf import PdfPages

from . import draw, style
from .plan import Picture

_NO_TIME: dict[str, Any] = {"CreationDate": None}


def write_folder(folder: Path, form: str, pictures: Iterable[Picture], dpi: int) -> None:
    """A file for each picture, a `png` or a `pdf`; the folder is made where it isn't there."""
    folder.mkdir(parents=True, exist_ok=True)
    for picture in pictures:
        file = folder / f"{picture.name}.{form}"
        if form == "png":
            write_png(file, picture, dpi)
        else:
            with style.applied():
                draw.figure(picture).savefig(file, metadata=_NO_TIME)


def write_pdf(file: Path, pictures: Iterable[Picture]) -> None:
    """A page for each picture."""
    with style.applied(), PdfPages(file, metadata=_NO_TIME) as pages:
        for picture in pictures:
            pages.savefig(draw.figure(picture))


def write_png(file: Path, picture: Picture, dpi: int) -> None:
    """One picture."""
    with style.applied():
        draw.figure(picture).savefig(file, dpi=dpi, pil_kwargs={"optimize": True})
