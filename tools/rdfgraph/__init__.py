"""Draws what a script books as a graph."""
