#!/usr/bin/env python3
"""Makes libballoc.so, which programs preload: malloc/glue.c over the static library of crate balloc_malloc.

    tools/build_malloc.py [--over FILE.a] [--to FILE.so]

Outside of the gate. It needs `rt` and its kit, a C compiler (`cc`, or $CC) and objcopy. Where the static library isn't
built yet, `rt lib` proves and builds it; with --over another archive stands for it, and a balloc_malloc.h beside that
for its header. It prints where the library lies: malloc/out/libballoc.so, or as --to says.

The kit asks for memory by malloc, realloc and free, which are this library's own once it is preloaded: in copies of
the archives these names are others, of the glue's (glue_malloc, which has the memory of heaps) or the C library's. No
symbol but malloc's and its like is seen from outside.
"""
import argparse
import os
import subprocess
import tempfile

from try_c import TOP, kit_folder

CRATE = f"{TOP}/crates/balloc_malloc"
OURS = f"{CRATE}/out/libballoc_malloc.a"
BUILT = f"{TOP}/malloc/out/libballoc.so"
RENAMED = {"malloc": "glue_malloc", "calloc": "__libc_calloc", "realloc": "__libc_realloc", "free": "glue_free",
           "aligned_alloc": "__libc_memalign"}
FLAGS = ["-std=c11", "-D_GNU_SOURCE", "-O2", "-g", "-Wall", "-Wextra", "-Werror", "-fPIC", "-fvisibility=hidden",
         "-ftls-model=initial-exec", "-fno-builtin-malloc", "-fno-builtin-calloc", "-shared"]
LINKED = ["-Wl,--exclude-libs,ALL", "-Wl,-Bsymbolic", "-Wl,-z,defs", "-Wl,-z,now", "-pthread", "-lm"]


def with_other_names(archive, folder):
    """A copy of an archive that asks the C library itself for memory."""
    copy = os.path.join(folder, os.path.basename(archive))
    words = [f"--redefine-sym={name}={other}" for name, other in RENAMED.items()]
    subprocess.run(["objcopy", *words, archive, copy], check=True)
    return copy


def build(archive=OURS, to=BUILT):
    """Makes the library, and answers where it lies."""
    if archive == OURS and not os.path.exists(OURS):
        subprocess.run(["rt", "lib"], cwd=CRATE, check=True)
    os.makedirs(os.path.dirname(os.path.abspath(to)), exist_ok=True)
    headers = [CRATE + "/include"] if archive == OURS else [os.path.dirname(os.path.abspath(archive)), CRATE + "/include"]
    with tempfile.TemporaryDirectory() as room:
        archives = [with_other_names(it, room) for it in [archive, f"{kit_folder()}/c/liblibc_c.a"]]
        subprocess.run([os.environ.get("CC", "cc"), *FLAGS, *(f"-I{it}" for it in headers), "-o", to, f"{TOP}/malloc/glue.c",
                        *archives, *LINKED], check=True)
    return to


def main():
    parser = argparse.ArgumentParser(usage=__doc__)
    parser.add_argument("--over", default=OURS)
    parser.add_argument("--to", default=BUILT)
    words = parser.parse_args()
    print(build(words.over, words.to))


if __name__ == "__main__":
    main()
