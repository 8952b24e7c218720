#!/usr/bin/env python3
"""Times a push and a pop through a store beside a list of malloc's blocks in C.

    tools/bench_store.py [--count N] [--runs N]

Run it when stores have changed, for the figures of docs/PERFORMANCE.md. One thread makes N (count) pairs of `push_front`
and `pop_front`, the second of which frees the node's block:

    store     `benches store pairs`
    heap      `benches heap pairs`, an allocation of one word and its free alone
    list      the same list in C, a node a block of malloc, over each allocator of the machine

Behind them stand the steps of a pair, each an access to a shared word: those of its allocation and of its
free, as `benches heap steps` and `hold` count them, a write for each of a node's three words, and a read.
"""
import argparse
import tempfile

import timed

HEAP = ["1", "1000", "4", "8"]
WORDS = 3

LIST = r"""
#include <inttypes.h>
#include <stdint.h>
#include <stdio.h>
#include <stdlib.h>

typedef struct node {
    struct node *next;
    uint64_t key, value;
} node;

static node *head;

static __attribute__((noinline)) int push_front(uint64_t key, uint64_t value)
{
    node *n = malloc(sizeof *n);
    if (!n)
        return 0;
    *n = (node){ head, key, value };
    head = n;
    return 1;
}

static __attribute__((noinline)) int pop_front(uint64_t *value)
{
    node *n = head;
    if (!n)
        return 0;
    *value = n->value;
    head = n->next;
    free(n);
    return 1;
}

int main(int words, char **word)
{
    if (words != 2)
        return 2;
    uint64_t count = strtoull(word[1], NULL, 10), popped = 0, values = 0, value;
    for (uint64_t k = 0; k < count; k++) {
        push_front(k, k);
        if (pop_front(&value)) {
            popped++;
            values += value;
        }
    }
    printf("popped %" PRIu64 " values %" PRIu64 "\n", popped, values);
    return 0;
}
"""


def steps_of(benches, mode):
    """How many steps there are for each block that is given, while the first superblock lasts."""
    first, last = (timed.counted(timed.Run([benches, "heap", mode, "1", count, *HEAP]).text) for count in ("4000", "8000"))
    return round((last["made"] - first["made"]) / (last["given"] - first["given"]))


def main():
    parser = argparse.ArgumentParser(description=__doc__.split("\n")[0])
    parser.add_argument("--count", type=int, default=1_000_000)
    parser.add_argument("--runs", type=int, default=7)
    said = parser.parse_args()
    benches = timed.program_of("benches", ["store", "pairs", "1", "1", *HEAP])
    print(timed.heading(said))
    with tempfile.TemporaryDirectory() as folder:
        listed = timed.compiled(LIST, "list", folder)
        programs = {
            "store": lambda count: ([benches, "store", "pairs", "1", str(count), *HEAP], None),
            "heap": lambda count: ([benches, "heap", "pairs", "1", str(count), *HEAP], None),
        }
        for name, library in timed.allocators().items():
            programs[name] = lambda count, library=library: ([listed, str(count)], library)
        taken, last = timed.figures(programs, said.count, said.runs)
        if last["store"].text != last["glibc"].text:
            raise SystemExit(f"the store and the list popped other values: {last['store'].text} {last['glibc'].text}")
        print(timed.table_head([*programs]))
        print(timed.row(taken.values()))
    pair, alloc = steps_of(benches, "steps"), steps_of(benches, "hold")
    print(f"steps of a push {alloc + WORDS}, of a pop {pair - alloc + WORDS}; of them {WORDS} each are on the node's words")


if __name__ == "__main__":
    main()
