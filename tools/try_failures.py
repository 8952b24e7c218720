#!/usr/bin/env python3
"""Makes each allocation, each read and each write of a run fail in turn, and checks how the run ends.

    tools/try_failures.py PROGRAM

Run it when a command, an edge or what takes memory has changed, and before a release: it alone sees the statuses 4, 5 and 6
of the built program. PROGRAM is the built one, as crates/balloc/out/balloc. Needs gcc. Ends with 1 where a run says
something untrue.

A run of `replay`, one of `census` and one of `cache` on the plain trace, a run of `schedule` on each of four races,
one of `replay` on the race of two lanes for a superblock, and a pipeline and a store, which have no input, are made
again for every call of the C library that the program makes
for memory, for input or for output: the n-th one fails. Each such run has to end

- with status 0 and its whole text, where the call wasn't needed after all,
- with status 6 and nothing written, where memory was refused,
- with status 4 and nothing written, where a read failed,
- with status 5 and less than its text, where a write failed.

Then all reads and writes are cut to one byte each: the text has to be the same.
"""

import os
import subprocess
import sys
import tempfile
from pathlib import Path

TRACES = Path(__file__).resolve().parent.parent / "traces"
RUNS = [
    (["replay"], TRACES / "plain_run.trace"),
    (["census"], TRACES / "plain_run.trace"),
    (["schedule"], TRACES / "two_installs.trace"),
    (["replay"], TRACES / "two_installs.trace"),
    (["schedule"], TRACES / "two_want_the_last_credit.trace"),
    (["schedule"], TRACES / "slow_free.trace"),
    (["schedule"], TRACES / "tag_tells_a_reused_block_apart.trace"),
    (["cache", "16"], TRACES / "plain_run.trace"),
    (["pipe", "4", "3", "7"], Path(os.devnull)),
    (["store", "10"], Path(os.devnull)),
]

# Stands before the C library: the call number FAIL_AT of the kind FAIL fails, or calls are cut to CUT bytes.
# The calls of that kind are counted in the file with the descriptor COUNT_IN, since the program ends at once.
SHIM = r"""
#define _GNU_SOURCE
#include <dlfcn.h>
#include <errno.h>
#include <stdatomic.h>
#include <stdlib.h>
#include <sys/mman.h>
#include <sys/syscall.h>
#include <unistd.h>

static atomic_long *calls;
static long fail_at, cut;
static char kind;

__attribute__((constructor)) static void begin(void) {
    const char *fail = getenv("FAIL"), *at = getenv("FAIL_AT"), *most = getenv("CUT"), *in = getenv("COUNT_IN");
    fail_at = at ? atol(at) : 0;
    cut = most ? atol(most) : 0;
    calls = mmap(NULL, sizeof *calls, PROT_READ | PROT_WRITE, MAP_SHARED, atoi(in), 0);
    kind = fail ? fail[0] : 0;
}

static int fails(char of) {
    return kind == of && atomic_fetch_add(calls, 1) + 1 == fail_at;
}

void *malloc(size_t size) {
    static void *(*next)(size_t);
    if (!next) next = dlsym(RTLD_NEXT, "malloc");
    return fails('m') ? NULL : next(size);
}

void *realloc(void *old, size_t size) {
    static void *(*next)(void *, size_t);
    if (!next) next = dlsym(RTLD_NEXT, "realloc");
    return fails('m') ? NULL : next(old, size);
}

ssize_t read(int from, void *to, size_t size) {
    if (fails('r')) { errno = EIO; return -1; }
    return syscall(SYS_read, from, to, cut && size > (size_t)cut ? (size_t)cut : size);
}

ssize_t write(int to, const void *from, size_t size) {
    if (fails('w')) { errno = EIO; return -1; }
    return syscall(SYS_write, to, from, cut && size > (size_t)cut ? (size_t)cut : size);
}

ssize_t __write(int to, const void *from, size_t size) { return write(to, from, size); }
"""


def build(folder):
    source, library = folder / "failing.c", folder / "failing.so"
    source.write_text(SHIM)
    subprocess.run(["gcc", "-O1", "-shared", "-fPIC", "-o", library, source, "-ldl"], check=True)
    return library


def run(program, library, words, text, **settings):
    """The status, what was written, and the number of calls of the kind that may fail."""
    with open(text, "rb") as source, tempfile.TemporaryFile() as count:
        count.write(bytes(8))
        count.flush()
        environment = {**os.environ, "LD_PRELOAD": str(library), "COUNT_IN": str(count.fileno())}
        environment.update({name.upper(): str(value) for name, value in settings.items()})
        ran = subprocess.run([program, *words], stdin=source, stdout=subprocess.PIPE, env=environment,
                             pass_fds=(count.fileno(),), timeout=60)
        count.seek(0)
        return ran.returncode, ran.stdout, int.from_bytes(count.read(8), sys.byteorder)


def is_true(kind, status, written, text):
    """Whether a run in which a call of this kind failed says nothing untrue."""
    if status == 0:
        return written == text
    if kind == "malloc":
        return status == 6 and written == b""
    if kind == "read":
        return status == 4 and written == b""
    return status == 5 and written != text and text.startswith(written)


def main():
    program = Path(sys.argv[1]).resolve()
    wrong = 0
    with tempfile.TemporaryDirectory() as folder:
        library = build(Path(folder))
        for words, source in RUNS:
            name = " ".join(words)
            status, text, _ = run(program, library, words, source)
            if status != 0:
                sys.exit(f"{name}: status {status}")
            for kind in ("malloc", "read", "write"):
                _, _, count = run(program, library, words, source, fail=kind)
                ended = {}
                for at in range(1, count + 1):
                    status, written, _ = run(program, library, words, source, fail=kind, fail_at=at)
                    ended[status] = ended.get(status, 0) + 1
                    if not is_true(kind, status, written, text):
                        wrong += 1
                        print(f"WRONG: {name}, {kind} {at}: status {status}, {len(written)} bytes")
                statuses = ", ".join(f"{many} with status {status}" for status, many in sorted(ended.items()))
                print(f"{name}: {kind} fails, each of {count}: {statuses}")
            status, written, _ = run(program, library, words, source, cut=1)
            same = status == 0 and written == text
            wrong += not same
            print(f"{name}: calls of one byte: {'the same text' if same else 'WRONG'}")
    return 1 if wrong else 0


if __name__ == "__main__":
    sys.exit(main())
