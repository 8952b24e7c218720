#!/usr/bin/env python3
"""Times the heap on threads beside bare atomics and beside malloc, as ratios; or puts it under stress.

    tools/bench_heap.py [--count N] [--runs N] [--threads N,..]
    tools/bench_heap.py caches [--count N] [--runs N] [--threads N,..]
    tools/bench_heap.py blocks [--count N] [--runs N] [--threads N,..]
    tools/bench_heap.py stress [--cached] [--rounds N] [--steps N] [--threads N,..] [--seed N]

Run it when the heap's calls or a cache have changed, for the figures of docs/PERFORMANCE.md; `stress` before a release. It
builds crates/benches where that is not built yet, and a small C program beside it by `cc`, which makes pairs of malloc and
free of the same size on as many threads. Each thread makes N (count):

    bare    atomic loads, compares and exchanges, and stores at random places of as many words
    steps   steps of allocations of one word and of their frees
    hold    such steps without a free, until the heap is full and refuses
    pairs   allocations of one word, each with its free behind it
    malloc  pairs of malloc and free

A figure is the least time of some runs, less that of a run with a count of 0, for one of them: by the
processor time (user) of all threads together, and by the clock on the wall where as many threads as
processors run. The programs take turns, so that all see the same load.

`caches` makes pairs through a cache in front of each pass, which keeps 64 blocks of a class, beside the
heap's own pairs and those of each allocator of the machine, and prints a table: nanoseconds of processor time
for a pair, in brackets by the clock, and how many times that of the best of the allocators, and of glibc, a
pair through a cache takes.

`blocks` does the same with blocks of 31 words, each allocated, filled, summed and freed, with plain stores and loads of
memory of malloc and, ahead of the rest, of a page's pieces; and by fills and sums of the heap's blocks.

`stress` makes rounds of calls of all kinds in which each block is filled and checked, with 2, 4, 8 and 16
threads, in three heaps from roomy to crowded, and prints the counts; it ends with 1 where a word was
wrong or a run failed. With --cached a cache stands in front of each pass. With --steps it begins again, with
other random numbers, until so many words were written and checked, each by a step of its own.
"""
import argparse
import os
import resource
import subprocess
import sys
import tempfile
import time

import timed

PROGRAM = os.path.join(timed.CRATES, "benches", "out", "benches")
HEAP = ["1000", "4", "8"]
STRESSED = [["256", "4", "64"], ["24", "2", "8"], ["4", "1", "2"]]
MODES = ["bare", "steps", "hold", "pairs", "malloc"]
BLOCK = "31"
WAYS = [("cache", "pieces", "a page's pieces"), ("cache", "", "through a cache"), ("heap", "", "the heap's own")]

MALLOC = r"""
#include <pthread.h>
#include <stdint.h>
#include <stdlib.h>

static unsigned long count;

static void *pairs(void *unused)
{
    for (unsigned long k = 0; k < count; k++) {
        void *block = malloc(8);
        __asm__ volatile("" : : "r"(block) : "memory");
        free(block);
    }
    return unused;
}

static void *blocks(void *wrong)
{
    for (unsigned long k = 0; k < count; k++) {
        uint64_t *block = malloc(31 * sizeof *block);
        for (uint64_t i = 0; i < 31; i++)
            block[i] = k + i;
        __asm__ volatile("" : : "r"(block) : "memory");
        uint64_t sum = 0;
        for (int i = 0; i < 31; i++)
            sum += block[i];
        free(block);
        if (sum != 31 * k + 465)
            abort();
    }
    return wrong;
}

int main(int words, char **word)
{
    pthread_t thread[16];
    if (words != 4)
        return 2;
    void *(*work)(void *) = word[1][0] == 'b' ? blocks : pairs;
    count = strtoul(word[2], NULL, 10);
    int threads = atoi(word[3]);
    if (threads < 1 || threads > 16)
        return 2;
    if (threads == 1)
        return work(NULL) != NULL;
    for (int k = 0; k < threads; k++)
        if (pthread_create(&thread[k], NULL, work, NULL))
            return 6;
    for (int k = 0; k < threads; k++)
        pthread_join(thread[k], NULL);
    return 0;
}
"""


def seconds(malloc, mode, count, threads):
    """The user time of one run, and the time on the wall."""
    if mode == "malloc":
        words = [malloc, "pairs", str(count), str(threads)]
    else:
        words = [PROGRAM, "heap", mode, "1", str(count), str(threads), *HEAP]
    used = resource.getrusage(resource.RUSAGE_CHILDREN).ru_utime
    began = time.perf_counter()
    subprocess.run(words, check=True, stdout=subprocess.DEVNULL)
    wall = time.perf_counter() - began
    return resource.getrusage(resource.RUSAGE_CHILDREN).ru_utime - used, wall


def bench(said):
    """Prints a line for each number of threads and each mode."""
    print(f"{os.cpu_count()} processors, load {os.getloadavg()[0]:.1f}, {said.count} a thread, least of {said.runs} runs")
    with tempfile.TemporaryDirectory() as folder:
        malloc = timed.compiled(MALLOC, "pairs", folder)
        for threads in said.threads:
            times = {mode: [] for mode in MODES}
            for _ in range(said.runs):
                for mode in MODES:
                    nothing = seconds(malloc, mode, 0, threads)
                    whole = seconds(malloc, mode, said.count, threads)
                    times[mode].append((whole[0] - nothing[0], whole[1] - nothing[1]))
            made = said.count * threads
            user = {mode: 1e9 * min(t[0] for t in times[mode]) / made for mode in MODES}
            wall = {mode: 1e9 * min(t[1] for t in times[mode]) / made for mode in MODES}
            bare = user["bare"]
            for mode in MODES:
                print(f"threads {threads:2} {mode:6} {user[mode]:8.1f} ns of processor time, {user[mode] / bare:6.2f} times bare"
                      f"  {wall[mode]:8.1f} ns on the wall", flush=True)
            print(f"threads {threads:2} pairs take {user['pairs'] / user['malloc']:.1f} times those of malloc, "
                  f"{user['pairs'] / user['steps']:.1f} times a step", flush=True)


def caches(said):
    """Prints a table of pairs, or blocks, through caches and what stands beside them."""
    mode = "blocks" if said.what == "blocks" else "pairs"
    print(timed.heading(said))
    with tempfile.TemporaryDirectory() as folder:
        malloc = timed.compiled(MALLOC, "pairs", folder)
        found = timed.allocators()
        ways = WAYS if mode == "blocks" else WAYS[1:]
        print(timed.table_head(["threads", *(said for _, _, said in ways), *found, "to the best", "to glibc"]))
        for threads in said.threads:
            programs = {
                place + way: lambda count, place=place, way=way: ([PROGRAM, place, way or mode, BLOCK, str(count), str(threads), *HEAP], None)
                for place, way, _ in ways
            }
            for name, library in found.items():
                programs[name] = lambda count, library=library: ([malloc, mode, str(count), str(threads)], library)
            taken, _ = timed.figures(programs, said.count, said.runs)
            pair = {name: figure.of_each(threads) for name, figure in taken.items()}
            best = min(pair[name].processor for name in found)
            ours = next(iter(pair.values())).processor
            print(timed.row([threads, *pair.values(), f"{ours / best:.2f}", f"{ours / pair['glibc'].processor:.2f}"]), flush=True)


def stress_all(said, seed):
    """Prints the counts of a run of each kind; answers whether all words were right, and how many they were."""
    right, words = True, 0
    place = "cache" if said.cached else "heap"
    for heap in STRESSED:
        for threads in said.threads:
            began = time.perf_counter()
            run = subprocess.run([PROGRAM, place, "stress", str(seed), str(said.rounds), str(threads), *heap], stdout=subprocess.PIPE, text=True)
            took = time.perf_counter() - began
            right = right and run.returncode == 0
            words += timed.counted(run.stdout).get("words", 0)
            print(f"{place} frames {heap[0]} heaps {heap[1]} units {heap[2]} threads {threads} seed {seed} status {run.returncode} "
                  f"seconds {took:.1f}: {run.stdout.strip()}", flush=True)
    return right, words


def stress(said):
    """Stress until so many words were written and checked, or one was wrong; answers whether all were right."""
    right, words, seed = stress_all(said, said.seed) + (said.seed,)
    while right and words < said.steps:
        seed += 1
        right, more = stress_all(said, seed)
        words += more
    print(f"words written and checked {words:,}, {'all right' if right else 'WRONG'}")
    return right


def main():
    parser = argparse.ArgumentParser(description=__doc__.split("\n")[0])
    parser.add_argument("what", nargs="?", choices=["bench", "caches", "blocks", "stress"], default="bench")
    parser.add_argument("--count", type=int)
    parser.add_argument("--runs", type=int)
    parser.add_argument("--rounds", type=int, default=20_000)
    parser.add_argument("--steps", type=int, default=0)
    parser.add_argument("--seed", type=int, default=1)
    parser.add_argument("--cached", action="store_true")
    parser.add_argument("--threads", type=timed.numbers)
    said = parser.parse_args()
    timed.program_of("benches", ["heap", "bare", "1", "1", "1", *HEAP])
    if said.what == "stress":
        said.threads = said.threads or [2, 4, 8, 16]
        sys.exit(0 if stress(said) else 1)
    said.threads = said.threads or [1, 2, 4]
    if said.what in ("caches", "blocks"):
        said.count, said.runs = said.count or 10_000_000, said.runs or 7
        caches(said)
    else:
        said.count, said.runs = said.count or 1_000_000, said.runs or 5
        bench(said)


if __name__ == "__main__":
    main()
