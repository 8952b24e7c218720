"""What the benches share: programs that are built, runs that are timed, and the allocators of the machine. It is no tool of
its own.
"""
import glob
import os
import resource
import statistics
import subprocess
import sys
import time

HERE = os.path.dirname(os.path.abspath(__file__))
CRATES = os.path.join(HERE, "..", "crates")
LIBRARIES = {"jemalloc": "libjemalloc.so.2", "mimalloc": "libmimalloc.so.*", "tcmalloc": "libtcmalloc_minimal.so.4"}


def program_of(crate, words):
    """The program of a crate, which is built where it isn't: `words` are those of a short run."""
    folder = os.path.join(CRATES, crate)
    program = os.path.join(folder, "out", crate)
    if not os.path.exists(program):
        subprocess.run(["rt", "run", "--", *words], check=True, cwd=folder, stdout=subprocess.DEVNULL)
    return program


def compiled(text, name, folder, linked=()):
    """The program that `cc` makes of this text, with what is linked to it."""
    source, program = os.path.join(folder, name + ".c"), os.path.join(folder, name)
    with open(source, "w") as out:
        out.write(text)
    subprocess.run(["cc", "-std=gnu11", "-O2", "-pthread", "-o", program, source, *linked], check=True)
    return program


def allocators():
    """The name of each allocator that is here, with the library to preload; glibc needs none."""
    found = {"glibc": None}
    for name, library in LIBRARIES.items():
        paths = sorted(glob.glob(f"/usr/lib/*/{library}") + glob.glob(f"/usr/lib/{library}"))
        if paths:
            found[name] = paths[-1]
        else:
            print(f"{name} is not installed", file=sys.stderr)
    return found


class Run:
    """A run of a program: the seconds of processor time, those by the clock, and what it printed."""

    def __init__(self, words, library=None, text=None):
        env = dict(os.environ, LD_PRELOAD=library) if library else None
        used = resource.getrusage(resource.RUSAGE_CHILDREN)
        began = time.perf_counter()
        self.text = subprocess.run(words, check=True, stdin=text, stdout=subprocess.PIPE, env=env, text=True).stdout
        self.clock = time.perf_counter() - began
        now = resource.getrusage(resource.RUSAGE_CHILDREN)
        self.processor = now.ru_utime - used.ru_utime + now.ru_stime - used.ru_stime


class Figure:
    """Nanoseconds for one of what is counted: of processor time, and by the clock."""

    def __init__(self, processor, clock):
        self.processor, self.clock = processor, clock

    def __str__(self):
        return f"{self.processor:.1f} ({self.clock:.1f})"

    def of_each(self, many):
        """Where each of what was counted stands for so many."""
        return Figure(self.processor / many, self.clock / many)


def median(runs, what, count):
    """Nanoseconds for one of so many, from pairs of a run with none and a run with all."""
    return 1e9 * statistics.median(getattr(whole, what) - getattr(nothing, what) for nothing, whole in runs) / count


def figures(programs, count, runs):
    """A figure for each program, and its last run. A program is a function of a count that answers the words to
    run and the library to preload. They take turns; each run stands less one with a count of 0."""
    pairs = {name: [] for name in programs}
    for _ in range(runs):
        for name, program in programs.items():
            pairs[name].append((Run(*program(0)), Run(*program(count))))
    taken = {name: Figure(median(both, "processor", count), median(both, "clock", count)) for name, both in pairs.items()}
    return taken, {name: both[-1][1] for name, both in pairs.items()}


def counted(text):
    """The counts of a line, by their names."""
    words = text.split()
    return {name: int(number) for name, number in zip(words[::2], words[1::2])}


def heading(said):
    """How the figures are taken."""
    return (f"{os.cpu_count()} processors, load {os.getloadavg()[0]:.1f}, count {said.count}, the median of {said.runs} runs in turns, "
            "each less one with a count of 0: nanoseconds of processor time, and by the clock in brackets")


def row(cells):
    """A line of a table."""
    return "| " + " | ".join(str(cell) for cell in cells) + " |"


def table_head(cells):
    """The first two lines of a table."""
    return row(cells) + "\n" + "|" + "---|" * len(cells)


def numbers(text):
    """The numbers of a list with commas."""
    return [int(word) for word in text.split(",")]
