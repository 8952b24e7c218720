"""What the random trials share (tools/try_replays.py, try_schedules.py, try_caches.py, try_calls.py and try_stores.py): the
limits of a heap, operations and traces that are drawn, runs of a built program, and the independent program of the same
specification. It is no tool of its own.
"""

import importlib
import re
import subprocess
import sys
from concurrent.futures import ThreadPoolExecutor
from pathlib import Path

SOURCE = Path(__file__).resolve().parent.parent / "crates" / "heap_geometry" / "src" / "limits.rt"
LIMITS = {name: int(value, 0) for name, value in re.findall(r"const (\w+): \w+ = (\w+);", SOURCE.read_text())}
SCRIPTS_AT_ONCE = 20

CALL_STEPS = LIMITS["CALL_STEPS"]
CLASSES = LIMITS["CLASSES"]
LARGE_MOST = LIMITS["LARGE_MOST"]
MAX_FRAMES = LIMITS["MAX_FRAMES"]
MAX_HEAPS = LIMITS["MAX_HEAPS"]
MAX_TURNS = LIMITS["MAX_TURNS"]
MAX_UNITS = LIMITS["MAX_UNITS"]
SMALL_MOST = LIMITS["SMALL_MOST"]
UNIT_WORDS = LIMITS["UNIT_WORDS"]


class Operations:
    """Operations on so many registers and shelves: `often` says of each letter how often it comes, `words` draws the words
    of an allocation, and `resized` those of a resize, from those of the allocation that is drawn beside it."""

    def __init__(self, registers, shelves, words, resized, often):
        self.registers, self.shelves, self.words, self.resized, self.often = registers, shelves, words, resized, often

    def drawn(self, rng):
        register, shelf, words = rng.randrange(self.registers), rng.randrange(self.shelves), self.words(rng)
        operations = {
            "a": f"a {register} {words} {rng.randrange(1 << 64)}",
            "f": f"f {register}",
            "w": f"w {register} {rng.randrange(1000)}",
            "c": f"c {register}",
            "p": f"p {register} {shelf}",
            "t": f"t {register} {shelf}",
            "r": f"r {register} {self.resized(rng, words)}",
        }
        return operations[rng.choices(list(self.often), list(self.often.values()))[0]]

    def lane(self, rng, least, most):
        """A lane of at least and at most so many."""
        return [self.drawn(rng) for _ in range(rng.randint(least, most))]


def text_of(version, heap, lanes, orders=()):
    """The text of a trace: `heap` is the rest of its first line."""
    lines = [f"{'heap' if version == 1 else 'heap2'} {heap}"]
    for operations in lanes:
        lines += ["lane", *operations]
    return "\n".join([*lines, *orders, "end", ""]).encode()


def run(program, words, trace):
    """The status of the program on this trace, and what it wrote."""
    ran = subprocess.run([program, *words], input=trace, stdout=subprocess.PIPE)
    return ran.returncode, ran.stdout.decode()


def of_model(folder, name):
    """A module of the independent program, which lies in this folder."""
    if folder not in sys.path:
        sys.path.insert(0, folder)
    return importlib.import_module(name)


class Expected:
    """What the independent program comes to; `form` is a number of its own, by which it has some commands and lines."""

    def __init__(self, folder, form):
        self.model = of_model(folder, "balloc")
        self.program = self.model.Program(form, of_model(folder, "core").WIDE)

    def run(self, words, trace):
        """The status and the text."""
        ended = self.model.run(words, self.model.MemorySource(trace), self.model.MemorySink(), self.program)
        return ended.status, ended.text


def scripts(program, plans):
    """Runs scripts, some at once, each by the words of its plan; yields each plan with the counts of its line, by their
    names, or with None where the program ended badly or before it."""
    rows = [plans[at : at + SCRIPTS_AT_ONCE] for at in range(0, len(plans), SCRIPTS_AT_ONCE)]

    def told(row):
        ran = subprocess.run([program, *(str(word) for plan in row for word in plan)], stdout=subprocess.PIPE, text=True)
        lines = [line.split() for line in ran.stdout.splitlines()]
        return [dict(zip(line[::2], map(int, line[1::2]))) for line in lines], ran.returncode

    with ThreadPoolExecutor(2) as pool:
        for row, (counts, status) in zip(rows, pool.map(told, rows)):
            yield from zip(row, counts)
            if status != 0 or len(counts) != len(row):
                last = row[max(len(counts), 1) - 1]
                print("status", status, "behind", *last)
                yield last, None
