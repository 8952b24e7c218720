#!/usr/bin/env python3
"""Runs random traces of 2 to 16 lanes by `replay`, and has each report checked.

    tools/try_replays.py PROGRAM MODEL SEED SECONDS

Run it when lanes, threads or the heap's calls have changed, for an hour or so before a release. PROGRAM is the built one,
as crates/balloc/out/balloc. MODEL is the folder of the independent program of the same specification: its check_report.py
compares the report of a roomy trace as a whole, and of others what a report alone can show. Each trace is run three times.
The last line counts; ends with 1 where a report can't be right, whose trace is printed before.
"""

import random
import sys
import time

from random_runs import MAX_FRAMES, MAX_HEAPS, MAX_UNITS, SMALL_MOST, Operations, of_model, run, text_of

RUNS = 3


def random_trace(rng):
    """A trace whose heap is too small, just large enough, roomy, or short of turns."""
    kind = rng.choice(["tight", "middling", "roomy", "turns"])
    frames = {"tight": rng.randint(1, 4), "roomy": MAX_FRAMES}.get(kind, rng.randint(1, 40))
    heaps = rng.randint(1, 2) if kind == "roomy" else rng.randint(1, MAX_HEAPS)
    units = MAX_UNITS if kind == "roomy" else rng.choice([0, 1, 4, 16])
    turns = f" {rng.randint(1, 30)}" if kind == "turns" else ""
    version = rng.choice([1, 2])
    shelves = kind != "roomy" and rng.random() < 0.5
    large = 0.03 if units > 0 and kind != "roomy" else 0

    def words(rng):
        """Those of a few units as often as `large` says, else those of a small block."""
        if rng.random() < large:
            return rng.randint(SMALL_MOST + 1, 3000)
        return rng.randint(0, rng.choice([7, 63, SMALL_MOST]))

    often = {"a": 40, "f": 25, "w": 7, "c": 13, "p": 8 if shelves else 0, "t": 7 if shelves else 0, "r": 25 if version == 2 else 0}
    operations = Operations(6, 3, words, lambda rng, _: words(rng), often)
    lanes = [operations.lane(rng, 0, 60) for _ in range(rng.randint(2, 16))]
    return text_of(version, f"{frames} {heaps} {units}{turns}", lanes)


def main():
    program, model, seed, seconds = sys.argv[1:]
    check = of_model(model, "check_report").check
    profile = of_model(model, "core").PROFILES["wide"]
    rng = random.Random(int(seed))
    until = time.monotonic() + float(seconds)
    traces = several = whole = wrong = 0
    while time.monotonic() < until:
        trace = random_trace(rng)
        traces += 1
        reports = {run(program, ["replay"], trace) for _ in range(RUNS)}
        several += len(reports) > 1
        for status, report in reports:
            complaints, exact = check(trace, report, profile, True)
            whole += exact
            if status != 0 or complaints:
                wrong += 1
                print(trace.decode(), "status", status, *complaints[:3], sep="\n")
    print(
        f"traces {traces} runs {RUNS * traces} with several reports {several} "
        f"compared as a whole {whole} wrong {wrong}"
    )
    return 1 if wrong > 0 else 0


if __name__ == "__main__":
    sys.exit(main())
