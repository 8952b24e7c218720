#!/usr/bin/env python3
"""Times collections in a heap, each thread with an allocator of its own, beside std's over the C library's malloc.

    tools/bench_collections.py [--runs N] [--threads N,..] [--scale N]

Run it when heap_allocator, memory_cache or what lies below has changed, for the figures of docs/PERFORMANCE.md. Each thread
makes, again and again:

    block     a vector of 31 words with room for them: filled, summed and dropped
    grow      a vector that grows to 1,000 words as they are pushed, summed and dropped
    tree      a map of 100,000 keys, each looked up, and dropped

in the heap (`benches collections`), and over the C library (`benches global`), with each allocator of the machine preloaded. A figure is nanoseconds of processor time
of all threads for one block, one word pushed, or one key, less a run of no rounds. What is printed has to be the same.
"""
import argparse

import timed

# Frames, processor heaps and units of the heap.
HEAP = ["4000", "4", "64"]
TASKS = [("block", 31, 2_000_000, 1), ("grow", 1000, 60_000, 1000), ("tree", 100_000, 8, 100_000)]


def words(program, place, task, size, threads, library=None):
    """What runs so many rounds of a task, as a function of their number."""
    return lambda rounds: ([program, place, task, str(size), str(rounds), str(threads), *HEAP], library)


def bench(said):
    program = timed.program_of("benches", ["global", "block", "31", "1", "1", *HEAP])
    others = timed.allocators()
    print(f"{said.runs} runs in turns, the median; nanoseconds of processor time, in brackets by the clock")
    print(timed.table_head(["what", "threads", "in a heap", *others, "to glibc", "to the best"]))
    for task, size, rounds, each in TASKS:
        for threads in said.threads:
            places = {"heap": words(program, "collections", task, size, threads)}
            places.update((name, words(program, "global", task, size, threads, library)) for name, library in others.items())
            taken, last = timed.figures(places, max(rounds // said.scale, 1), said.runs)
            texts = {run.text for run in last.values()}
            figures = {name: figure.of_each(each * threads) for name, figure in taken.items()}
            best = min(figures[name].processor for name in others)
            print(timed.row([task, threads, figures["heap"], *(figures[name] for name in others),
                             f"{figures['heap'].processor / figures['glibc'].processor:.2f}",
                             f"{figures['heap'].processor / best:.2f}"]), flush=True)
            if len(texts) != 1:
                raise SystemExit(f"{task} on {threads} threads sums up to {sorted(texts)}")


def main():
    parser = argparse.ArgumentParser(usage=__doc__)
    parser.add_argument("--runs", type=int, default=5)
    parser.add_argument("--threads", type=timed.numbers, default=[1, 2, 4])
    parser.add_argument("--scale", type=int, default=1)
    bench(parser.parse_args())


if __name__ == "__main__":
    main()
