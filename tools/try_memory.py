#!/usr/bin/env python3
"""Counts the memory that a process holds for a heap: before it opens, after, with a quarter of its frames in use, with all
blocks freed, and after it closes; and again after it was opened and closed many times.

    tools/try_memory.py [--frames N] [--rounds N]

Run it when the heap is opened, laid or closed in another way. It needs `rt` and its kit, and a C compiler. It builds a
small C program over the static library of crate balloc_c, which `rt lib` builds where it isn't built yet. Held is what of
the process lies in memory, mapped its whole address space, in KiB. It ends with 1 where opening holds more than 16 MiB,
where a frame in use holds more than its own bytes and an eighth, or where closing leaves more than 1 MiB, of held or of
mapped memory.
"""
import argparse
import os
import subprocess
import sys
import tempfile

from try_c import build_c, libraries

SOURCE = """
#define _DEFAULT_SOURCE
#include <inttypes.h>
#include <stdio.h>
#include <stdlib.h>
#include "balloc.h"

#define PASSES 16
#define WORDS 2047

static balloc_pass passes[PASSES];

static void tell(const char *when) {
    long mapped = 0, held = 0;
    FILE *file = fopen("/proc/self/statm", "r");
    if (!file || fscanf(file, "%ld %ld", &mapped, &held) != 2) exit(3);
    fclose(file);
    printf("%s %ld %ld\\n", when, held * 4, mapped * 4);
    fflush(stdout);
}

static void open_heap(uint32_t frames) {
    if (balloc_open(frames, 16, 64, 1000000, 0, passes, PASSES) != BALLOC_DONE) exit(4);
}

static void close_heap(void) {
    for (int i = 0; i < PASSES; i++) {
        uint64_t won, lost;
        balloc_census census;
        if (balloc_close(&passes[i], true, &won, &lost, &census) != BALLOC_DONE) exit(5);
    }
}

int main(int argc, char **argv) {
    uint32_t frames = (uint32_t)atoi(argv[1]);
    int rounds = argc > 2 ? atoi(argv[2]) : 0;
    uint32_t blocks = frames / 4 * 2;
    uint64_t *ids = calloc(blocks, sizeof *ids);
    setvbuf(stdout, NULL, _IONBF, 0);
    for (uint32_t i = 0; i < blocks; i++) ids[i] = 1;
    tell("before");
    open_heap(frames);
    tell("opened");
    for (uint32_t i = 0; i < blocks; i++)
        if (balloc_alloc_words(&passes[0], WORDS, &ids[i]) != BALLOC_DONE || balloc_fill(&passes[0], ids[i], i) != BALLOC_DONE) return 6;
    tell("used");
    for (uint32_t i = 0; i < blocks; i++)
        if (balloc_free(&passes[0], ids[i]) != BALLOC_DONE) return 7;
    tell("freed");
    close_heap();
    tell("closed");
    for (int i = 0; i < rounds; i++) {
        open_heap(frames);
        close_heap();
    }
    tell("again");
    return 0;
}
"""


def main():
    parser = argparse.ArgumentParser(description="counts the memory that a heap holds")
    parser.add_argument("--frames", type=int, default=4096)
    parser.add_argument("--rounds", type=int, default=200)
    options = parser.parse_args()
    with tempfile.TemporaryDirectory() as room:
        source, program = f"{room}/memory.c", f"{room}/memory"
        with open(source, "w") as out:
            out.write(SOURCE)
        build_c(source, program, libraries(), [])
        text = subprocess.run([program, str(options.frames), str(options.rounds)], stdout=subprocess.PIPE, text=True, check=True).stdout
    held, mapped = {}, {}
    for line in text.splitlines():
        when, first, second = line.split()
        held[when], mapped[when] = int(first), int(second)
        print(f"{when:8} held {held[when] - held['before']:8} KiB   mapped {mapped[when] - mapped['before']:8} KiB")
    frame = 4096 * 8 // 1024
    used = held["used"] - held["opened"]
    faults = []
    if held["opened"] - held["before"] > 16 * 1024:
        faults.append("opening holds more than 16 MiB")
    if used > options.frames // 4 * (frame + frame // 8):
        faults.append("the frames in use hold more than their bytes")
    for when in ("closed", "again"):
        if held[when] - held["before"] > 1024 or mapped[when] - mapped["before"] > 1024:
            faults.append(f"memory is left behind: {when}")
    for fault in faults:
        print(fault)
    return 1 if faults else 0


if __name__ == "__main__":
    sys.exit(main())
