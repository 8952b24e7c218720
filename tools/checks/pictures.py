"""The pictures of docs/ beside what tools/pictures.py and tools/plots.py draw them from, and the figures of
docs/PERFORMANCE.md beside those of the sections and tables that they come from."""

import pictures
import plots


def complaints():
    yield from pictures.complaints()
    yield from plots.complaints(plots.read_tables())


def summary():
    return f"{len(pictures.drawings())} drawings and {len(plots.PLOTS)} plots"
