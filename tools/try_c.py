#!/usr/bin/env python3
"""Builds and runs the programs of examples/c and examples/rust over the static libraries of balloc_c and balloc_malloc.

    tools/try_c.py [--rounds N] [--sanitize]

Run it when one of these, its header or an example has changed; the gate builds no C. What a preloaded malloc serves is
tried by tools/try_malloc.py. It needs `rt` and its kit, a C compiler
(`cc`, or $CC) with threads, for first.c as C++ a `c++` (or $CXX), and for examples/rust a `rustc`, without which these are
left out. Where the library isn't built yet, `rt lib` builds it. Each program ends with 0 where all went as it should. With
--sanitize the C programs are built again under the address and undefined behaviour sanitizers, and under the thread
sanitizer: these see the program's own code and its calls of malloc, and not the library's accesses. What the library copies
and fills by memmove and memset they see too, but not the atomic words by which that is handed over: UNSEEN leaves it out.
"""
import argparse
import os
import shutil
import subprocess
import sys
import tempfile

TOP = os.path.dirname(os.path.dirname(os.path.abspath(__file__)))
UNSEEN = "race:^balloc_\nrace:^live_heap::\n"
HEADERS = [f"-I{TOP}/crates/{crate}/include" for crate in ["balloc_c", "balloc_malloc"]]


def kit_folder():
    """The kit's folder, in which lies the page that `rt doc` names."""
    page = subprocess.run(["rt", "doc"], capture_output=True, text=True, check=True).stdout.strip()
    return os.path.dirname(os.path.realpath(page))


def libraries(crate):
    ours = f"{TOP}/crates/{crate}/out/lib{crate}.a"
    if not os.path.exists(ours):
        subprocess.run(["rt", "lib"], cwd=f"{TOP}/crates/{crate}", check=True)
    return [ours, f"{kit_folder()}/c/liblibc_c.a"]


def build_c(source, program, linked, flags):
    compiler = os.environ.get("CC", "cc")
    subprocess.run([compiler, "-std=c11", "-O2", "-g", "-Wall", "-Wextra", "-Werror", *HEADERS, *flags, source,
                    "-o", program, *linked, "-pthread", "-lm"], check=True)


def build_cpp(source, program, linked, flags):
    compiler = os.environ.get("CXX", "c++")
    subprocess.run([compiler, "-x", "c++", "-std=c++17", "-O2", "-Wall", "-Wextra", "-Werror", *HEADERS, *flags, source,
                    "-x", "none", "-o", program, *linked, "-pthread", "-lm"], check=True)


def build_rust(source, program, linked):
    arguments = [it for library in linked for it in ("-C", f"link-arg={library}")]
    subprocess.run(["rustc", "--edition", "2021", "-O", source, "-o", program, *arguments, "-C", "link-arg=-lm"], check=True)


def run(name, program, arguments, env=None):
    status = subprocess.run([program, *arguments], env=env, check=False).returncode
    print(f"{name}: {'ended well' if status == 0 else f'status {status}'}", flush=True)
    return status != 0


def main():
    parser = argparse.ArgumentParser(description="builds and runs examples/c and examples/rust")
    parser.add_argument("--rounds", type=int, default=100000)
    parser.add_argument("--sanitize", action="store_true")
    options = parser.parse_args()
    linked, rounds, failed = libraries("balloc_c"), str(options.rounds), 0
    kinds = {"": []}
    if options.sanitize:
        kinds |= {" (address)": ["-fsanitize=address,undefined"], " (thread)": ["-fsanitize=thread"]}
    with tempfile.TemporaryDirectory() as room:
        program, unseen = f"{room}/program", f"{room}/unseen"
        with open(unseen, "w") as out:
            out.write(UNSEEN)
        env = dict(os.environ, TSAN_OPTIONS=f"suppressions={unseen}")
        build_c(f"{TOP}/examples/c/first.c", program, linked, [])
        failed += run("first", program, [])
        if shutil.which(os.environ.get("CXX", "c++")):
            build_cpp(f"{TOP}/examples/c/first.c", program, linked, [])
            failed += run("first, as C++", program, [])
        for kind, flags in kinds.items():
            build_c(f"{TOP}/examples/c/queue.c", program, linked, flags)
            failed += run(f"queue{kind}", program, [rounds], env)
            build_c(f"{TOP}/examples/c/hostile.c", program, linked, flags)
            for depth in ["0", "8"]:
                failed += run(f"hostile{kind}, magazines of {depth}", program, ["4", rounds, depth], env)
        build_c(f"{TOP}/examples/c/pointers.c", program, libraries("balloc_malloc"), [])
        failed += run("pointers", program, [])
        if shutil.which("rustc"):
            build_rust(f"{TOP}/examples/rust/main.rs", program, linked)
            failed += run("rust", program, [rounds])
        else:
            print("rust: left out, since there is no rustc")
    return 1 if failed else 0


if __name__ == "__main__":
    sys.exit(main())
