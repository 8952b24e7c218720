#!/usr/bin/env python3
"""Draws the pictures of docs/ that show no figures.

    tools/pictures.py

Run it when crates.txt has changed, or what a picture shows of the algorithm: the picture of the crates is made from
crates.txt, the others are drawn from the numbers below. tools/plots.py draws those of figures, and gate_times.py that of
the gate. Each picture has a light ground of its own, so that it reads the same on a light and on a dark page.
"""

from pathlib import Path

TOP = Path(__file__).resolve().parent.parent
PICTURES = TOP / "docs" / "pictures"

GROUND = "#fbfbf8"
INK = "#1c2733"
FAINT = "#8794a3"
BOX = "#e3ecf7"
STRONG = "#bcd3ee"
LIVE = "#f3c99a"
FREE = "#d6ecd2"
HELD = "#fdf3b8"


class Picture:
    """An SVG of a given size, in user units."""

    def __init__(self, width, height, title):
        self.width, self.height, self.title = width, height, title
        self.parts = []

    def add(self, text):
        self.parts.append(text)

    def box(self, x, y, width, height, fill=BOX, dashed=False, stroke=INK):
        dash = ' stroke-dasharray="5 4"' if dashed else ""
        self.add(
            f'<rect x="{x}" y="{y}" width="{width}" height="{height}" rx="5" '
            f'fill="{fill}" stroke="{stroke}" stroke-width="1.2"{dash}/>'
        )

    def text(self, x, y, words, size=13, anchor="middle", colour=INK, mono=False, bold=False):
        family = "ui-monospace, Menlo, Consolas, monospace" if mono else "system-ui, Helvetica, Arial, sans-serif"
        weight = ' font-weight="600"' if bold else ""
        escaped = words.replace("&", "&amp;").replace("<", "&lt;")
        self.add(
            f'<text x="{x}" y="{y}" font-family="{family}" font-size="{size}" '
            f'text-anchor="{anchor}" fill="{colour}"{weight}>{escaped}</text>'
        )

    def labelled(self, x, y, width, height, words, fill=BOX, dashed=False, size=13, mono=True):
        self.box(x, y, width, height, fill, dashed)
        lines = words.split("\n")
        first = y + height / 2 + size * 0.35 - (len(lines) - 1) * size * 0.6
        for number, line in enumerate(lines):
            self.text(x + width / 2, first + number * size * 1.2, line, size, mono=mono)

    def path(self, points, arrow=True, colour=INK, dashed=False):
        head = ' marker-end="url(#head)"' if arrow else ""
        dash = ' stroke-dasharray="5 4"' if dashed else ""
        self.add(f'<path d="{points}" fill="none" stroke="{colour}" stroke-width="1.4"{dash}{head}/>')

    def drawn(self):
        """The text of the picture."""
        body = "\n".join(self.parts)
        return (
            f'<svg xmlns="http://www.w3.org/2000/svg" viewBox="0 0 {self.width} {self.height}" '
            f'width="{self.width}" height="{self.height}" role="img">\n'
            f"<title>{self.title}</title>\n"
            '<defs><marker id="head" viewBox="0 0 8 8" refX="7" refY="4" markerWidth="7" markerHeight="7" '
            f'orient="auto-start-reverse"><path d="M0 0L8 4L0 8z" fill="{INK}"/></marker></defs>\n'
            f'<rect width="{self.width}" height="{self.height}" rx="8" fill="{GROUND}"/>\n'
            f"{body}\n</svg>\n"
        )

    def save(self, name):
        PICTURES.mkdir(parents=True, exist_ok=True)
        (PICTURES / name).write_text(self.drawn())


def read_crates():
    """The crates of the repository, each with the crates of the repository that it names."""
    stands_on = {}
    for line in (TOP / "crates.txt").read_text().splitlines():
        line = line.split("#")[0].strip()
        if line:
            name, names = line.split(":")
            stands_on[name.split()[0]] = names.split()
    return {name: [low for low in names if low in stands_on] for name, names in stands_on.items()}


def below(stands_on, name):
    """Every crate below a crate."""
    found = set()
    for low in stands_on[name]:
        found |= {low} | below(stands_on, low)
    return found


def draw_crates():
    stands_on = read_crates()
    height = {}

    def height_of(name):
        if name not in height:
            height[name] = 1 + max((height_of(low) for low in stands_on[name]), default=-1)
        return height[name]

    # A crate that only high ones use is drawn close to them.
    for name in sorted(stands_on, key=height_of, reverse=True):
        above = [height[user] for user, lows in stands_on.items() if name in lows]
        height[name] = min(above, default=height[name] + 1) - 1
    rows = {}
    for name in stands_on:
        rows.setdefault(height[name], []).append(name)
    wide, high, gap_x, gap_y = 138, 34, 18, 34
    most = max(len(names) for names in rows.values())
    width = most * wide + (most - 1) * gap_x + 48
    top_row = max(rows)
    picture = Picture(width, (top_row + 1) * (high + gap_y) + 30, "The crates: each stands on those below it")
    places = {}
    for row in range(top_row + 1):
        names = sorted(rows[row], key=lambda name: (sum(places[low][0] for low in stands_on[name]) / len(stands_on[name])
                                                   if stands_on[name] else 0, name))
        whole = len(names) * wide + (len(names) - 1) * gap_x
        for number, name in enumerate(names):
            x = (width - whole) / 2 + number * (wide + gap_x)
            y = 20 + (top_row - row) * (high + gap_y)
            places[name] = (x, y)
    for name, lows in stands_on.items():
        direct = [low for low in lows if not any(low in below(stands_on, other) for other in lows)]
        for low in direct:
            (x, y), (a, b) = places[name], places[low]
            picture.path(f"M{x + wide / 2:.0f} {y + high:.0f} L{a + wide / 2:.0f} {b:.0f}", arrow=False, colour=FAINT)
    for name, (x, y) in places.items():
        picture.labelled(x, y, wide, high, name, STRONG if name in ("sound_state", "trace_commands") else BOX)
    return {"crates.svg": picture}


def draw_superblock(picture, x, y, words, live, chain, reserved, caption):
    """A superblock of eight blocks: its anchor, the active word, its blocks, and its chain."""
    picture.text(x, y, caption, 14, "start", bold=True)
    for number, (name, value) in enumerate(words):
        picture.labelled(x + number * 215, y + 14, 205, 40, f"{name}\n{value}", "#ffffff", size=12)
    cell, base = 52, y + 106
    for index in range(8):
        free = index in chain
        fill = LIVE if index in live else (HELD if free and chain.index(index) < reserved else FREE)
        picture.box(x + index * cell, base, cell, 36, fill)
        picture.text(x + index * cell + cell / 2, base + 23, str(index), 13, mono=True)
    for rank, (first, second) in enumerate(zip(chain, chain[1:])):
        a, b = x + first * cell + cell / 2, x + second * cell + cell / 2
        depth = 26 + 9 * rank
        picture.path(f"M{a} {base + 36} C{a} {base + 36 + depth}, {b} {base + 36 + depth}, {b} {base + 39}")
    picture.text(x + chain[0] * cell + cell / 2, base - 18, "avail", 12, mono=True)
    start = x + chain[0] * cell + cell / 2
    picture.path(f"M{start} {base - 14} L{start} {base - 3}")


def draw_pop():
    picture = Picture(700, 452, "A superblock before and after a pop")
    draw_superblock(
        picture, 30, 32,
        [("Anchor(d)", "avail 2 count 1 tag 7"), ("Active(h, c)", "d, 1 credit: offers 2"), ("the caller", "has reserved 1")],
        live=[0, 3, 4, 7], chain=[2, 5, 1, 6], reserved=3,
        caption="Before: TakeCredit has reserved a block; its caller has read avail 2 and link 5",
    )
    draw_superblock(
        picture, 30, 226,
        [("Anchor(d)", "avail 5 count 1 tag 8"), ("Active(h, c)", "d, 1 credit: offers 2"), ("the caller", "hands block 2 out")],
        live=[0, 2, 3, 4, 7], chain=[5, 1, 6], reserved=2,
        caption="After: PopBlock exchanged the anchor; the tag is one higher",
    )
    y = 414
    for number, (fill, words) in enumerate(((LIVE, "live"), (HELD, "free and reserved"), (FREE, "free and counted"))):
        x = 30 + number * 170
        picture.box(x, y, 22, 18, fill)
        picture.text(x + 30, y + 14, words, 13, "start")
    picture.text(540, y + 14, "each block once", 13, "start", FAINT)
    return {"pop.svg": picture}


def draw_states():
    picture = Picture(900, 440, "The states of a superblock, and the steps between them")
    left, middle, right, top, bottom = 40, 370, 710, 50, 290
    places = {
        "in the making": (left, top), "ACTIVE": (middle, top), "FULL": (right, top),
        "no superblock": (left, bottom), "EMPTY": (middle, bottom), "PARTIAL": (right, bottom),
    }
    for name, (x, y) in places.items():
        state = name.isupper()
        picture.labelled(x, y, 150, 48, name, STRONG if state else "#ffffff", not state, mono=state)

    def note(x, y, *lines, anchor="middle"):
        for number, line in enumerate(lines):
            picture.text(x, y + number * 15, line, 12, anchor, mono=True)

    picture.path("M190 74 L367 74")
    note(279, 64, "StoreAnchor")
    picture.path("M412 50 C400 14, 490 14, 478 47")
    note(500, 24, "PopBlock, InstallCredits", anchor="start")
    picture.path("M520 74 L707 74")
    note(614, 64, "PopBlock")
    note(614, 92, "nothing left")
    picture.path("M820 98 L820 287")
    note(828, 196, "PushBlock", anchor="start")
    picture.path("M745 290 L745 101")
    note(738, 140, "Grant", "of one", anchor="end")
    picture.path("M508 98 C560 170, 640 240, 707 296")
    note(612, 192, "ReturnCredits", anchor="start")
    picture.path("M707 316 C600 290, 500 220, 462 101")
    note(520, 244, "Grant", anchor="end")
    picture.path("M710 328 L523 328")
    note(617, 350, "PushBlock", "the last live block")
    picture.path("M370 314 L193 314")
    note(281, 304, "Retire")
    picture.path("M390 98 C350 190, 270 240, 193 296")
    note(298, 190, "InstallSuperblock", "lost, then retired", anchor="end")
    picture.path("M115 290 L115 101", dashed=True)
    note(124, 150, "scan, push,", "PopDesc", anchor="start")
    picture.text(
        450, 412, "ACTIVE stands in an active word or a hand, PARTIAL and EMPTY in a slot, a list or a hand, FULL nowhere.",
        13, colour=FAINT,
    )
    return {"states.svg": picture}


def draw_descriptor():
    picture = Picture(780, 330, "The way of a descriptor")
    stations = [
        (30, 40, "available", "DescHead, Next(d)"),
        (300, 40, "in a hand", "guarded until popped"),
        (570, 40, "in use", "active word, slot, list,\na hand, or FULL"),
        (570, 220, "EMPTY", "bound to nothing"),
        (300, 220, "retired", "a caller's list"),
        (30, 220, "being pushed", "nobody guards it"),
    ]
    for x, y, name, where in stations:
        picture.box(x, y, 180, 66, STRONG if name == "in use" else BOX)
        picture.text(x + 90, y + 22, name, 14, bold=True)
        for number, line in enumerate(where.split("\n")):
            picture.text(x + 90, y + 41 + number * 15, line, 12)

    def step(x, y, words, anchor="middle"):
        picture.text(x, y, words, 12, anchor, mono=True)

    picture.path("M210 73 L297 73")
    step(254, 62, "PopDesc")
    picture.path("M480 73 L567 73")
    step(524, 62, "StoreAnchor")
    picture.path("M660 106 L660 217")
    step(668, 166, "PushBlock", "start")
    picture.path("M570 253 L483 253")
    step(526, 242, "Retire")
    picture.path("M300 253 L213 253")
    step(256, 242, "ReadHazard")
    step(256, 272, "picks d")
    picture.path("M120 220 L120 109")
    step(128, 166, "PushDesc", "start")
    picture.path("M390 106 L390 217", dashed=True)
    step(398, 160, "not needed:", "start")
    step(398, 176, "Discard, Refuse", "start")
    return {"descriptor.svg": picture}


def draw_words(name, title, moments, rows):
    """Words at some moments of a schedule: a row a word, a column a moment; what changed is marked."""
    first, wide, high = 150, 178, 34
    picture = Picture(first + wide * len(moments) + 40, 74 + high * len(rows), title)
    for column, moment in enumerate(moments):
        x = 20 + first + column * wide
        for number, line in enumerate(moment.split("\n")):
            picture.text(x + wide / 2, 24 + number * 16, line, 12, bold=number == 0)
    for row, (word, *values) in enumerate(rows):
        y = 52 + row * high
        picture.text(20 + first - 10, y + high / 2 + 2, word, 12, "end", mono=True)
        for column, value in enumerate(values):
            changed = column > 0 and value != values[column - 1]
            picture.labelled(20 + first + column * wide, y, wide - 8, high - 8, value, HELD if changed else "#ffffff", size=11)
    return {name: picture}


def draw_tour():
    tag = draw_words(
        "tour_tag.svg", "The tag tells a reused block apart",
        ["lane 0 has read", "lane 1 has popped 64", "lane 1 has freed them", "lane 0 has popped"],
        [
            ("Anchor(0) avail", "1", "65", "1", "64"),
            ("count", "1,983", "1,919", "1,983", "1,983"),
            ("tag", "0", "64", "64", "65"),
            ("link of block 1", "2", "live", "64", "live"),
            ("lane 0 recalls", "avail 1, tag 0, link 2", "avail 1, tag 0, link 2", "avail 1, tag 0, link 2", "nothing"),
        ],
    )
    credit = draw_words(
        "tour_credit.svg", "Two want the last credit",
        ["both have read", "lane 1 has taken it", "lane 0 has a new one", "both are given"],
        [
            ("Active(0, 10)", "0, 0 credits", "null", "1, 0 credits", "1, 0 credits"),
            ("Anchor(0)", "avail 1, tag 0", "avail 1, tag 0", "avail 1, tag 0", "FULL, tag 1"),
            ("Anchor(1)", "none", "none", "ACTIVE, tag 0", "ACTIVE, tag 0"),
            ("FrameHead", "frame 1", "frame 1", "empty", "empty"),
            ("lane 1 has reserved", "nothing", "a block of 0", "a block of 0", "nothing"),
        ],
    )
    free = draw_words(
        "tour_free.svg", "A slow free",
        ["lane 0 made EMPTY", "lane 1 was refused", "refused twice", "lane 0 has ended"],
        [
            ("Anchor(0)", "EMPTY", "EMPTY", "EMPTY", "EMPTY"),
            ("Slot(0, 10)", "0", "null", "null", "null"),
            ("FrameHead", "empty", "empty", "empty", "frame 0"),
            ("Hazard(0)", "0", "0", "0", "null"),
            ("lane 1 has retired", "nothing", "0, 1", "0, 2", "0, 1"),
            ("DescHead", "1", "2", "1", "2"),
        ],
    )
    install = draw_words(
        "tour_install.svg", "Two installs",
        ["lane 0 is ready", "lane 1 has installed", "lane 0 gave back", "lane 0 is given"],
        [
            ("Active(0, 10)", "null", "1, 0 credits", "1, 0 credits", "null"),
            ("Anchor(0)", "ACTIVE, new", "ACTIVE, new", "retired", "retired"),
            ("Anchor(1)", "none", "ACTIVE, tag 0", "ACTIVE, tag 0", "FULL, tag 1"),
            ("FrameHead", "frame 1", "empty", "frame 0", "frame 0"),
        ],
    )
    return {**tag, **credit, **free, **install}


def drawings():
    """Each picture by the name of its file."""
    return {**draw_tour(), **draw_crates(), **draw_pop(), **draw_states(), **draw_descriptor()}


def complaints():
    """The files that are other than what would be drawn now."""
    for name, picture in drawings().items():
        if not (PICTURES / name).is_file() or (PICTURES / name).read_text() != picture.drawn():
            yield f"docs/pictures/{name} is other than tools/pictures.py draws it"


if __name__ == "__main__":
    for name, picture in drawings().items():
        picture.save(name)
