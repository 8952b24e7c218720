#!/usr/bin/env python3
"""Runs random traces through caches by `cache`, and compares each text with that of another program.

    tools/try_caches.py PROGRAM MODEL SEED TRACES [ROOMY]

Run it when caches or the lanes through them have changed. PROGRAM is the built one, as crates/balloc/out/balloc. MODEL is
the folder of the independent program of the same specification. TRACES traces of one lane are run, each at one of the
depths 1, 2, 16 and 64, half of them of version 2; and ROOMY roomy traces of 2 to 8 lanes, 0 where it isn't named, ten times
each on threads. The texts have to be the same, byte for byte: the report and the number of hits. The last line counts; ends
with 1 where a text differs, whose trace is printed before.
"""

import random
import sys

from random_runs import MAX_FRAMES, MAX_UNITS, SMALL_MOST, Expected, Operations, run, text_of

DEPTHS = [1, 2, 16, 64]
RUNS = 10


def lonely_trace(rng):
    """A trace of one lane whose heap is too small, or short of turns, or large enough."""
    turns = f" {rng.randint(1, 12)}" if rng.random() < 0.3 else ""
    version = rng.choice([1, 2])
    heap = f"{rng.randint(1, 6)} {rng.randint(1, 3)} {rng.choice([0, 1, 2, 4])}{turns}"
    return text_of(version, heap, [operations_of(True, version).lane(rng, 1, 120)])


def roomy_trace(rng):
    """A trace of several lanes that has frames and turns to spare, and no shelf."""
    version = rng.choice([1, 2])
    operations = operations_of(False, version)
    lanes = [operations.lane(rng, 0, 60) for _ in range(rng.randint(2, 8))]
    return text_of(version, f"{MAX_FRAMES} {rng.randint(1, 2)} {MAX_UNITS}", lanes)


def operations_of(everything, version):
    """Those on five registers; large blocks and shelves only where everything may come."""

    def words(rng):
        if everything and rng.random() < 0.05:
            return rng.randint(SMALL_MOST + 1, 3000)
        return rng.choice([0, 1, 1, 2, 3, 4, 30, 700, SMALL_MOST])

    shelves = 6 if everything else 0
    often = {"a": 40, "f": 35, "w": 5, "c": 8, "p": shelves, "t": shelves, "r": 20 if version == 2 else 0}
    return Operations(5, 2, words, lambda _, words: words, often)


def main():
    program, model, seed, traces, *roomy = sys.argv[1:]
    roomy = int(roomy[0]) if roomy else 0
    expected, rng = Expected(model, 19), random.Random(int(seed))
    hits = wrong = 0
    for count in range(int(traces) + roomy):
        alone = count < int(traces)
        trace = lonely_trace(rng) if alone else roomy_trace(rng)
        words = ["cache", str(rng.choice(DEPTHS))]
        wanted = expected.run(words, trace)
        if wanted[0] == 0:
            hits += int(wanted[1].splitlines()[-1].split()[1])
        for _ in range(1 if alone else RUNS):
            ran = run(program, words, trace)
            if ran != wanted:
                wrong += 1
                print(trace.decode(), *words, "status", *ran, "and not", *wanted, sep="\n")
                break
    print(f"traces of one lane {traces} roomy {roomy} hits {hits} wrong {wrong}")
    return 1 if wrong > 0 else 0


if __name__ == "__main__":
    sys.exit(main())
