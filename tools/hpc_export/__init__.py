"""Exports a database of the profiler to the formats of other tools, and to a page for a browser."""
