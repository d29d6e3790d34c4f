"""Reads what rdf prints and draws it."""
