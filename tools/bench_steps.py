#!/usr/bin/env python3
"""Times the steps of the machine beside plain memory accesses, as ratios.

    tools/bench_steps.py [--count N] [--runs N]

Run it when the machine or what decides a step has changed, for the figures of docs/PERFORMANCE.md. It builds crates/benches
where that is not built yet, and runs it: `machine bare` makes loads, compares and stores at random places of a table of as
many words as the heap has, `hold` steps of 16 callers in turn that never free, `all` steps of 16 callers in turn that make
calls of all kinds. Each figure is the least processor time (user) of some runs, divided by their number of steps or
accesses; the opening of the heap and the sums that are printed are taken off by a run with a count of 0.
"""
import argparse
import os
import resource
import subprocess

HERE = os.path.dirname(os.path.abspath(__file__))
CRATE = os.path.join(HERE, "..", "crates", "benches")
PROGRAM = os.path.join(CRATE, "out", "benches")
HEAP = ["16", "1000", "4", "8"]


def seconds(mode, count):
    """The user time of one run."""
    before = resource.getrusage(resource.RUSAGE_CHILDREN).ru_utime
    words = [PROGRAM, "machine", mode, "1", str(count), *HEAP]
    subprocess.run(words, check=True, stdout=subprocess.DEVNULL)
    return resource.getrusage(resource.RUSAGE_CHILDREN).ru_utime - before


def main():
    parser = argparse.ArgumentParser(description=__doc__.split("\n")[0])
    parser.add_argument("--count", type=int, default=10_000_000)
    parser.add_argument("--runs", type=int, default=5)
    said = parser.parse_args()
    if not os.path.exists(PROGRAM):
        words = ["rt", "run", "--", "machine", "bare", "1", "1", *HEAP]
        subprocess.run(words, check=True, cwd=CRATE, stdout=subprocess.DEVNULL)
    modes = ["bare", "hold", "all"]
    times = {mode: [] for mode in modes}
    for _ in range(said.runs):
        for mode in modes:
            times[mode].append(seconds(mode, said.count) - seconds(mode, 0))
    least = {mode: 1e9 * min(times[mode]) / said.count for mode in modes}
    for mode in modes:
        print(f"{mode:5} {least[mode]:6.1f} ns  {least[mode] / least['bare']:5.2f} times bare")


if __name__ == "__main__":
    main()
