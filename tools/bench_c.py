#!/usr/bin/env python3
"""Times calls of the heap from C beside malloc's, on 1, 2 and 4 threads.

    tools/bench_c.py [--count N] [--runs N] [--threads LIST]

Run it when calls from C or the heap's calls have changed, for the figures of docs/PERFORMANCE.md. Each thread makes N
(count) rounds of one kind, over the static library of crate balloc_c, without magazines and with magazines for 64 blocks of
a class, and over each allocator of the machine:

    pair      a block of one word is allocated and freed
    block     a block of 31 words is allocated, written by a range, read by a range and freed; over malloc a range
              is a loop of relaxed atomic stores, or loads
    memory    the same by the block's memory, with those loops over each
    crossing  over the library alone: a free of a number that names no block, which is refused
"""
import argparse
import tempfile

import timed
from try_c import HEADERS, libraries

COMMON = r"""
#define _GNU_SOURCE
#include <inttypes.h>
#include <pthread.h>
#include <stdatomic.h>
#include <stdint.h>
#include <stdio.h>
#include <stdlib.h>
#include <string.h>

enum { MOST_THREADS = 16, WORDS = 31 };

struct worker {
    _Alignas(64) uint64_t rounds, sum, wrong;
    const char *kind;
    void *pass;
};

static void work(struct worker *w);

static void *start(void *worker)
{
    work(worker);
    return NULL;
}

static int run_all(struct worker *workers, unsigned threads)
{
    pthread_t started[MOST_THREADS];
    for (unsigned t = 0; t < threads; t++)
        if (pthread_create(&started[t], NULL, start, &workers[t]))
            return 2;
    uint64_t sum = 0, wrong = 0;
    for (unsigned t = 0; t < threads; t++) {
        pthread_join(started[t], NULL);
        sum += workers[t].sum;
        wrong += workers[t].wrong;
    }
    printf("sum %" PRIu64 " wrong %" PRIu64 "\n", sum, wrong);
    return wrong != 0;
}
"""

OURS = COMMON + r"""
#include "balloc.h"

static balloc_pass passes[MOST_THREADS];

static void pair(struct worker *w)
{
    for (uint64_t k = 0; k < w->rounds; k++) {
        uint64_t id;
        if (balloc_alloc_words(w->pass, 1, &id) != BALLOC_DONE || balloc_free(w->pass, id) != BALLOC_DONE)
            w->wrong++;
    }
}

static void block(struct worker *w)
{
    uint64_t in[WORDS], out[WORDS];
    for (uint64_t k = 0; k < w->rounds; k++) {
        uint64_t id;
        for (unsigned i = 0; i < WORDS; i++)
            in[i] = k + i;
        if (balloc_alloc_words(w->pass, WORDS, &id) != BALLOC_DONE || balloc_write_range(w->pass, id, 0, in, WORDS) != BALLOC_DONE
            || balloc_read_range(w->pass, id, 0, out, WORDS) != BALLOC_DONE || balloc_free(w->pass, id) != BALLOC_DONE)
            w->wrong++;
        for (unsigned i = 0; i < WORDS; i++)
            w->sum += out[i];
    }
}

static void memory(struct worker *w)
{
    uint64_t in[WORDS], out[WORDS];
    for (uint64_t k = 0; k < w->rounds; k++) {
        uint64_t id;
        void *begin;
        for (unsigned i = 0; i < WORDS; i++)
            in[i] = k + i;
        if (balloc_alloc(w->pass, sizeof in, &id, &begin) != BALLOC_DONE) {
            w->wrong++;
            continue;
        }
        _Atomic uint64_t *at = begin;
        for (unsigned i = 0; i < WORDS; i++)
            atomic_store_explicit(&at[i], in[i], memory_order_relaxed);
        for (unsigned i = 0; i < WORDS; i++)
            out[i] = atomic_load_explicit(&at[i], memory_order_relaxed);
        if (balloc_free(w->pass, id) != BALLOC_DONE)
            w->wrong++;
        for (unsigned i = 0; i < WORDS; i++)
            w->sum += out[i];
    }
}

static void crossing(struct worker *w)
{
    for (uint64_t k = 0; k < w->rounds; k++)
        if (balloc_free(w->pass, 12345) != BALLOC_NO_BLOCK)
            w->wrong++;
}

static void work(struct worker *w)
{
    if (!strcmp(w->kind, "pair"))
        pair(w);
    else if (!strcmp(w->kind, "block"))
        block(w);
    else if (!strcmp(w->kind, "memory"))
        memory(w);
    else
        crossing(w);
}

int main(int words, char **word)
{
    if (words != 5)
        return 2;
    unsigned threads = (unsigned)atoi(word[2]), depth = (unsigned)atoi(word[4]);
    if (threads > MOST_THREADS || balloc_open(1000, 4, 8, BALLOC_MOST_TURNS, depth, passes, threads) != BALLOC_DONE)
        return 2;
    static struct worker workers[MOST_THREADS];
    for (unsigned t = 0; t < threads; t++)
        workers[t] = (struct worker){ .rounds = strtoull(word[3], NULL, 10), .kind = word[1], .pass = &passes[t] };
    int status = run_all(workers, threads);
    for (unsigned t = 0; t < threads; t++) {
        uint64_t won, lost;
        balloc_census census;
        if (balloc_close(&passes[t], true, &won, &lost, &census) != BALLOC_DONE)
            status = 1;
    }
    return status;
}
"""

MALLOC = COMMON + r"""
static void pair(struct worker *w)
{
    for (uint64_t k = 0; k < w->rounds; k++) {
        void *volatile at = malloc(sizeof(uint64_t));
        if (!at)
            w->wrong++;
        free(at);
    }
}

static void block(struct worker *w)
{
    uint64_t in[WORDS], out[WORDS];
    for (uint64_t k = 0; k < w->rounds; k++) {
        for (unsigned i = 0; i < WORDS; i++)
            in[i] = k + i;
        _Atomic uint64_t *at = malloc(WORDS * sizeof *at);
        if (!at) {
            w->wrong++;
            continue;
        }
        for (unsigned i = 0; i < WORDS; i++)
            atomic_store_explicit(&at[i], in[i], memory_order_relaxed);
        for (unsigned i = 0; i < WORDS; i++)
            out[i] = atomic_load_explicit(&at[i], memory_order_relaxed);
        free(at);
        for (unsigned i = 0; i < WORDS; i++)
            w->sum += out[i];
    }
}

static void work(struct worker *w)
{
    if (!strcmp(w->kind, "pair"))
        pair(w);
    else
        block(w);
}

int main(int words, char **word)
{
    if (words != 4)
        return 2;
    unsigned threads = (unsigned)atoi(word[2]);
    if (threads > MOST_THREADS)
        return 2;
    static struct worker workers[MOST_THREADS];
    for (unsigned t = 0; t < threads; t++)
        workers[t] = (struct worker){ .rounds = strtoull(word[3], NULL, 10), .kind = word[1] };
    return run_all(workers, threads);
}
"""


def table(kind, programs, said):
    """A row for each number of threads. All programs have to sum up the same words."""
    print(f"\n{kind}")
    for number, threads in enumerate(timed.numbers(said.threads)):
        takers = {
            name: lambda count, words=words, library=library: ([words[0], kind, str(threads), str(count), *words[1:]], library)
            for name, (words, library) in programs.items()
        }
        taken, last = timed.figures(takers, said.count, said.runs)
        if len({run.text for run in last.values()}) > 1:
            raise SystemExit(f"sums differ: {[run.text for run in last.values()]}")
        if number == 0:
            print(timed.table_head(["threads", *taken]))
        print(timed.row([threads, *(figure.of_each(threads) for figure in taken.values())]), flush=True)


def main():
    parser = argparse.ArgumentParser(description=__doc__.split("\n")[0])
    parser.add_argument("--count", type=int, default=1_000_000)
    parser.add_argument("--runs", type=int, default=7)
    parser.add_argument("--threads", default="1,2,4")
    said = parser.parse_args()
    linked = [*libraries("balloc_c"), "-lm", *HEADERS]
    print(timed.heading(said))
    with tempfile.TemporaryDirectory() as folder:
        our = timed.compiled(OURS, "ours", folder, linked)
        ours = {"balloc_c": ([our, "0"], None), "with magazines": ([our, "64"], None)}
        peer = timed.compiled(MALLOC, "peer", folder)
        peers = {name: ([peer], library) for name, library in timed.allocators().items()}
        table("pair", ours | peers, said)
        table("block", ours | peers, said)
        table("memory", ours | peers, said)
        table("crossing", ours, said)


if __name__ == "__main__":
    main()
