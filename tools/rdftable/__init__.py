"""A table at a glance: its columns, and its first entries."""
