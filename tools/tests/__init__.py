"""Tests of the tools for pictures, graphs and tables."""

import importlib.util
import unittest


def needs_matplotlib() -> None:
    """Skips the module that calls it where there is no matplotlib."""
    if importlib.util.find_spec("matplotlib") is None:
        raise unittest.SkipTest("no matplotlib")
