#!/usr/bin/env python3
"""Times the programs of two trees beside each other, on the same traces.

    tools/beside.py [--runs N] PROGRAM PROGRAM TRACE..

Run it behind a change that may cost time, with the program of the tree before it and that of the tree behind it. Both
programs replay each trace in turns, the first one N times and the second one N times, so that both see the same load. The
lines say the medians in milliseconds, by the clock and of processor time, and what the second one's are of the first one's.
Each run must end well; texts may differ where lanes race.
"""
import argparse
import os
import statistics

import timed


def runs_of(programs, trace, runs):
    """For each program its runs on the trace."""
    found = [[] for _ in programs]
    for _ in range(runs):
        for program, of in zip(programs, found):
            with open(trace) as text:
                of.append(timed.Run([program, "replay"], text=text))
    return found


def main():
    parser = argparse.ArgumentParser(usage=__doc__)
    parser.add_argument("--runs", type=int, default=11)
    parser.add_argument("programs", nargs=2)
    parser.add_argument("traces", nargs="+")
    words = parser.parse_args()
    print("| trace | first, ms | of a processor | second, ms | of a processor | by the clock | of a processor |")
    print("|---|---|---|---|---|---|---|")
    for trace in words.traces:
        clock, processor = [], []
        for of in runs_of(words.programs, trace, words.runs):
            clock.append(1000 * statistics.median(run.clock for run in of))
            processor.append(1000 * statistics.median(run.processor for run in of))
        print(f"| {os.path.basename(trace)} | {clock[0]:.1f} | {processor[0]:.1f} | {clock[1]:.1f} | {processor[1]:.1f}"
              f" | {clock[1] / clock[0]:.3f} | {processor[1] / processor[0]:.3f} |", flush=True)


if __name__ == "__main__":
    main()
