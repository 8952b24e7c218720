#!/usr/bin/env python3
"""Draws the plots of docs/PERFORMANCE.md from its tables.

    tools/plots.py            draws each picture of PLOTS anew
    tools/plots.py --check    draws none, and ends with 1 where a picture or a figure is another than its table's

Run it when a table of docs/PERFORMANCE.md has changed; tools/check.py checks it too. A picture is drawn from the table that
it stands below on the page, and from nothing else: of several tables it is the last one above the picture. Bars are one for
each cell of some columns, by rows; lines go over the numbers of one column, with a panel for each kind of row. Both stand
over a scale of powers of two, so that a ratio has the same length everywhere. Nothing is measured here.

The check also holds each number of the page's first table against the section that its row leads to, and each number
of a column "to the best" against the others of its row.
"""

import re
import sys
from math import ceil, floor, log2

from pictures import FAINT, FREE, HELD, INK, LIVE, PICTURES, STRONG, TOP, Picture

PAGE = TOP / "docs" / "PERFORMANCE.md"
FILLS = [LIVE, STRONG, FREE, HELD, "#d9d0ea", "#f2d3d8"]
STROKES = ["#c0641c", "#2f6db5", "#3b8f3b", "#b09300", "#7a55b0", "#b0455a"]
GRID = "#dfe3e8"
ALLOCATORS = ["glibc", "jemalloc", "mimalloc", "tcmalloc"]


class Bars:
    """A bar for each cell of these columns, and of those rows alone whose first cell begins with `only`."""

    def __init__(self, title, columns, unit, only=""):
        self.title, self.columns, self.unit, self.only = title, columns, unit, only


class Lines:
    """A line for each of these columns, over the numbers of the column `over`; a panel for each cell of `panels`."""

    def __init__(self, title, columns, unit, over, panels=None):
        self.title, self.columns, self.unit, self.over, self.panels = title, columns, unit, over, panels


PROCESSOR = "nanoseconds of processor time, all threads together"
PLOTS = {
    "ways.svg": Bars("A pair by way, on one thread", ["balloc", *ALLOCATORS], "nanoseconds of processor time", "a pair"),
    "calls.svg": Bars("Calls on the heap beside plain C", ["balloc", "twin"], PROCESSOR),
    "cached_pairs.svg": Lines("A pair through a cache", ["through a cache", *ALLOCATORS, "the heap's own"], PROCESSOR, "threads"),
    "c_pairs.svg": Lines("A pair from C", ["with magazines", *ALLOCATORS, "without"], PROCESSOR, "threads"),
    "lanes.svg": Lines("Lanes against time", ["balloc", *ALLOCATORS], "milliseconds by the clock", "lanes", "trace"),
    "whole_runs.svg": Bars("Whole runs of traces", ["balloc", *ALLOCATORS], "milliseconds by the clock"),
    "cached_runs.svg": Bars("Whole runs through caches", ["`cache 64`", *ALLOCATORS], "milliseconds by the clock"),
    "cached_lanes.svg": Lines("Lanes against time, through caches", ["`cache 64`", *ALLOCATORS], "milliseconds by the clock",
                              "lanes", "trace"),
    "pipe.svg": Bars("A message of a pipeline", ["pipe", *ALLOCATORS, "rounds, glibc"], PROCESSOR),
}


def cells_of(line):
    return [cell.strip() for cell in line.strip().strip("|").split("|")]


def read_tables():
    """The tables of the page, each with the line behind it, its header and its rows."""
    lines = PAGE.read_text().splitlines()
    tables, first = [], None
    for number, line in enumerate([*lines, ""]):
        if line.startswith("|"):
            first = number if first is None else first
        elif first is not None:
            tables.append((number, cells_of(lines[first]), [cells_of(row) for row in lines[first + 2:number]]))
            first = None
    return tables


def table_above(name, tables):
    """The header and the rows of the last table above a picture."""
    lines = PAGE.read_text().splitlines()
    place = next((k for k, line in enumerate(lines) if f"(pictures/{name})" in line), None)
    if place is None:
        sys.exit(f"the page doesn't show {name}")
    _, header, rows = [table for table in tables if table[0] <= place][-1]
    return header, rows


def number_of(cell):
    """The number at the beginning of a cell."""
    return float(cell.split(" ")[0].replace(",", ""))


def told(cell):
    """The number at the beginning of a cell, as the table writes it."""
    return cell.split(" ")[0]


def words_of(cell):
    """A cell without the signs of the page."""
    return re.sub(r"\[([^\]]*)\]\([^)]*\)", r"\1", cell).replace("`", "")


class Scale:
    """Powers of two around some numbers, as places from `start` over `length`."""

    def __init__(self, values, start, length):
        self.low = floor(log2(min(values)))
        self.high = max(ceil(log2(max(values))), self.low + 1)
        self.start, self.length = start, length

    def place(self, value):
        return self.start + self.length * (log2(value) - self.low) / (self.high - self.low)

    def powers(self):
        return [2.0 ** power for power in range(self.low, self.high + 1)]


def legend(picture, columns, colours, left):
    x = left
    for colour, column in zip(colours, columns):
        picture.box(x, 38, 14, 12, colour)
        picture.text(x + 20, 48, words_of(column), 12, "start")
        x += 44 + 7 * len(words_of(column))


def draw_bars(plot, header, rows):
    picked = [header.index(column) for column in plot.columns]
    # The cells before the first drawn column name a row; those that count something are left out.
    named = [k for k in range(min(picked)) if header[k] not in ("operations", "in")]
    rows = [row for row in rows if row[0].startswith(plot.only)]
    values = [[number_of(row[k]) for k in picked] for row in rows]

    def name_of(row):
        return ", ".join(f"{header[k]} {row[k]}" if row[k].isdigit() else words_of(row[k]) for k in named)

    left, wide, bar, gap = 40 + 7 * max(len(name_of(row)) for row in rows), 520, 11, 14
    scale = Scale([value for row in values for value in row], left, wide)
    tall = len(picked) * bar + gap
    foot = 68 + tall * len(rows)
    picture = Picture(left + wide + 60, foot + 34, plot.title)
    picture.text(20, 26, plot.title, 15, "start", bold=True)
    picture.text(left + wide, 26, plot.unit, 12, "end", FAINT)
    legend(picture, plot.columns, FILLS, left)
    for power in scale.powers():
        x = scale.place(power)
        picture.path(f"M{x:.1f} 60 L{x:.1f} {foot}", arrow=False, colour=GRID)
        picture.text(round(x, 1), foot + 16, f"{power:g}", 11, colour=FAINT)
    for number, (row, cells) in enumerate(zip(rows, values)):
        y = 68 + number * tall
        picture.text(left - 10, y + tall / 2, name_of(row), 12, "end", colour=INK)
        for place, value in enumerate(cells):
            length = max(2.0, scale.place(value) - left)
            picture.box(left, y + place * bar, round(length, 1), bar - 1, FILLS[place], stroke=FAINT)
            picture.text(round(left + length + 5, 1), y + place * bar + bar - 2, told(row[picked[place]]), 9, "start", FAINT)
    return picture


def panels_of(plot, header, rows):
    """For each panel its name and its rows: the cell of the column `over`, then one for each line."""
    picked = [header.index(column) for column in (plot.over, *plot.columns)]
    panels = {}
    for row in rows:
        name = row[header.index(plot.panels)] if plot.panels else ""
        panels.setdefault(name, []).append([row[k] for k in picked])
    # A line needs two points.
    return {name: points for name, points in panels.items() if len(points) > 1}


def draw_lines(plot, header, rows):
    panels = panels_of(plot, header, rows)
    wide = 620 if len(panels) == 1 else 200
    left, gap, top, tall = 60, 50, 78, 230
    across = len(panels) * wide + (len(panels) - 1) * gap
    heights = [number_of(cell) for points in panels.values() for point in points for cell in point[1:]]
    scale = Scale(heights, top + tall, -tall)
    picture = Picture(left + across + 40, top + tall + 62, plot.title)
    picture.text(20, 26, plot.title, 15, "start", bold=True)
    picture.text(left + across, 26, plot.unit, 12, "end", FAINT)
    legend(picture, plot.columns, STROKES, 20)
    for number, (name, points) in enumerate(panels.items()):
        start = left + number * (wide + gap)
        over = Scale([number_of(point[0]) for point in points], start + 24, wide - 48)
        for power in scale.powers():
            y = round(scale.place(power), 1)
            picture.path(f"M{start} {y} L{start + wide} {y}", arrow=False, colour=GRID)
            picture.text(start - 8, y + 4, f"{power:g}", 11, "end", FAINT)
        for point in points:
            picture.text(round(over.place(number_of(point[0])), 1), top + tall + 18, told(point[0]), 11, colour=FAINT)
        picture.text(start + wide / 2, top + tall + 36, plot.over, 12, colour=FAINT)
        picture.text(start + wide / 2, top + tall + 52, words_of(name), 12, bold=True)
        for line in reversed(range(len(plot.columns))):
            places = [(round(over.place(number_of(point[0])), 1), round(scale.place(number_of(point[line + 1])), 1))
                      for point in points]
            picture.path("M" + " L".join(f"{x} {y}" for x, y in places), arrow=False, colour=STROKES[line])
            for x, y in places:
                picture.add(f'<circle cx="{x}" cy="{y}" r="3" fill="{STROKES[line]}"/>')
            if line == 0:
                for (x, y), point in zip(places, points):
                    picture.text(x, y - 8, told(point[1]), 10, colour=STROKES[0])
    return picture


def draw(name, tables):
    plot = PLOTS[name]
    header, rows = table_above(name, tables)
    return draw_bars(plot, header, rows) if isinstance(plot, Bars) else draw_lines(plot, header, rows)


def sections():
    """The text of each section of the page, by the anchor of its heading."""
    found = {}
    for part in re.split(r"^## ", PAGE.read_text(), flags=re.M)[1:]:
        heading, _, text = part.partition("\n")
        found[re.sub(r"[^a-z0-9 -]", "", heading.lower()).replace(" ", "-")] = text
    return found


def complaints(tables):
    for name in PLOTS:
        path = PICTURES / name
        if f"(pictures/{name})" not in PAGE.read_text():
            yield f"the page doesn't show {name}"
        elif not path.exists() or path.read_text() != draw(name, tables).drawn():
            yield f"{name} isn't drawn from its table"
    texts = sections()
    for row in tables[0][2]:
        anchor = re.search(r"\(#([^)]*)\)", row[-1])
        if anchor is None or anchor[1] not in texts:
            yield f"'{row[0]}' leads to no section"
            continue
        numbers = re.findall(r"\d[\d,]*(?:\.\d+)?", texts[anchor[1]])
        for column, cell in zip(tables[0][1][1:-1], row[1:-1]):
            # A ratio of the row's own numbers is held against them below.
            if re.fullmatch(r"\d[\d,.]*", cell) and column != "to the best" and cell not in numbers:
                yield f"'{row[0]}': {cell} doesn't stand in the section"
    for _, header, rows in tables:
        if "to the best" not in header or not set(ALLOCATORS) <= set(header):
            continue
        ours = header.index("glibc") - 1
        for row in rows:
            if row[header.index("to the best")] not in ("", "-") and row[header.index("jemalloc")] != "-":
                best = min(number_of(row[header.index(name)]) for name in ALLOCATORS)
                ratio = number_of(row[header.index("to the best")])
                if abs(number_of(row[ours]) / best - ratio) > 0.06:
                    yield f"'{row[0]}': {row[ours]} is not {ratio} times {best}"


def main():
    tables = read_tables()
    if sys.argv[1:] == ["--check"]:
        found = list(complaints(tables))
        print("\n".join([*found, f"{len(PLOTS)} pictures compared, {len(found)} differences"]))
        return 1 if found else 0
    if sys.argv[1:]:
        sys.exit(__doc__)
    for name in PLOTS:
        draw(name, tables).save(name)
    return 0


if __name__ == "__main__":
    sys.exit(main())
