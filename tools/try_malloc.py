#!/usr/bin/env python3
"""Runs real programs over libballoc.so, beside the other allocators of the machine.

    tools/try_malloc.py [--runs N] [--only NAMES] [--library FILE.so] [--python PROGRAM] [--cpython] [--stress FOLDER]

Outside of the gate. It needs what tools/build_malloc.py needs, and of Debian's packages libjemalloc2, libmimalloc2.0,
libtcmalloc-minimal4 (the other allocators), sqlite3, perl, python3, git, gcc, and for --cpython libpython3.11-testsuite
(or that of the version that PROGRAM has); rustc, where it is there. What is missing is left out, and said.

First examples/c/answers.c, over balloc alone. Then each program runs N times over each allocator, by turns: what it writes
has to be the same over all of them. Two tables tell the milliseconds of processor time (of user and system, with the
program's own children) and the most memory that it held at once, in MB, each the median of N; and what balloc's are of those of
the best other one: the median of what they are in each turn, since a host's pace may change between turns:

    sqlite3   tables and an index in memory: 200,000 rows inserted, selected, deleted and updated
    perl      strings of a hash that grow and go
    python3   dicts, lists, strings and JSON, with PYTHONMALLOC=malloc
    git       the log of this repository with its counts of lines
    gcc       compiles 200 functions
    swap      examples/c/swap.c: 32 threads that free each other's blocks
    rust      examples/rust/maps.rs: maps and strings on threads

--cpython runs CPython's own tests of json, dicts, lists, threads, garbage and files, over glibc and over balloc: these have
to pass where those do. --stress builds test/test-stress.c of mimalloc's source package (`apt-get source mimalloc`), unpacked
in FOLDER, over malloc, and runs it over balloc. It ends with 1 where a text differs or a program doesn't end well.
"""
import argparse
import os
import re
import shutil
import statistics
import subprocess
import sys
import tempfile

import timed
from build_malloc import TOP, build

# Python's own memory counts as that of a child which it starts: so a small program starts it, and tells what it used.
MEASURE = r"""
#include <stdio.h>
#include <stdlib.h>
#include <sys/resource.h>
#include <sys/wait.h>
#include <unistd.h>

int main(int argc, char **argv)
{
    int status;
    struct rusage used;
    if (argc < 4) return 2;
    pid_t child = fork();
    if (child == 0) {
        if (argv[2][0]) setenv("LD_PRELOAD", argv[2], 1);
        execvp(argv[3], argv + 3);
        _exit(127);
    }
    if (wait4(child, &status, 0, &used) != child) return 2;
    FILE *out = fopen(argv[1], "w");
    if (!out) return 2;
    fprintf(out, "%ld %ld\n", 1000000 * (used.ru_utime.tv_sec + used.ru_stime.tv_sec) + used.ru_utime.tv_usec
            + used.ru_stime.tv_usec, used.ru_maxrss);
    fclose(out);
    return WIFEXITED(status) ? WEXITSTATUS(status) : 128 + WTERMSIG(status);
}
"""

STATEMENTS = """
create table t(a integer primary key, b text);
with recursive c(x) as (select 1 union all select x + 1 from c where x < 200000) insert into t select x, hex(x * 7) from c;
create index i on t(b);
select count(*) from t where b like '3%';
select substr(b, 1, 4), count(*), max(a) from t group by 1 order by 2 desc, 1 limit 5;
delete from t where a % 3 = 0;
update t set b = b || a where a % 5 = 0;
create table u as select b, group_concat(a) as l from t group by substr(b, 1, 5);
select count(*), sum(length(b)), sum(length(l)) from u;
select count(*), sum(length(b)) from t;
"""

PERL = """
my %h;
for my $i (1 .. 1_500_000) { $h{$i % 7000} .= "x" x ($i % 37); delete $h{($i * 13) % 7000} if $i % 3 == 0 }
my @parts = map { [$_, length $h{$_}] } sort keys %h;
my $all = 0;
$all += $_->[1] for @parts;
print scalar(@parts), " $all\\n";
"""

PYTHON = """
import json
words = {}
for i in range(150000):
    words.setdefault(str(i * 7919 % 50021), []).append((i, str(i)))
text = json.dumps(words)
again = json.loads(text)
lines = ["%s %d" % (key, len(value)) for key, value in sorted(again.items())]
parts = [line.split() for _ in range(5) for line in lines]
print(len(text), len(lines), sum(int(count) for _, count in parts))
"""

TESTS = ["test_json", "test_dict", "test_list", "test_threading", "test_gc", "test_io"]


def functions(count):
    """A text in C that gives a compiler work."""
    body = """
struct s%(i)d { struct s%(i)d *next; long key; char name[%(n)d]; };
static long f%(i)d(struct s%(i)d *list, long key, const char *name)
{
    long found = 0;
    for (struct s%(i)d *at = list; at; at = at->next)
        if (at->key == key || (key %% %(n)d == 3 && __builtin_strcmp(at->name, name) == 0)) found += at->key * %(n)d;
        else switch (at->key %% 7) {
            case 0: found ^= key << 2; break;
            case 1: found += at->name[key & 3]; break;
            case 2: for (int i = 0; i < %(n)d; i++) found += at->name[i] * i; break;
            default: found -= %(i)d;
        }
    return found;
}
long g%(i)d(void *list, long key) { return f%(i)d(list, key, "%(i)d") + f%(i)d(list, key + 1, "other"); }
"""
    return "".join(body % {"i": i, "n": 5 + i % 23} for i in range(count))


def programs(room, python):
    """Each program that is here, with its words and what it finds in the environment."""
    with open(f"{room}/functions.c", "w") as out:
        out.write(functions(100))
    found = {"sqlite3": ["sqlite3", ":memory:", STATEMENTS], "perl": ["perl", "-e", PERL], "python3": [python, "-c", PYTHON],
             "git": ["git", "-C", TOP, "--no-pager", "log", "--stat", "-n", "300"],
             "gcc": ["gcc", "-O2", "-S", "-o", "-", f"{room}/functions.c"]}
    found = {name: words for name, words in found.items() if is_here(name, words[0])}
    if not os.path.exists(f"{TOP}/.git"):
        print("git is left out: this is no clone", file=sys.stderr)
        found.pop("git", None)
    found["swap"] = [compiled(room, "swap"), "32", "100000"]
    if is_here("rust", "rustc"):
        subprocess.run(["rustc", "--edition", "2021", "-O", f"{TOP}/examples/rust/maps.rs", "-o", f"{room}/maps"], check=True)
        found["rust"] = [f"{room}/maps"]
    return found


def is_here(name, program):
    if shutil.which(program):
        return True
    print(f"{name} is left out: there is no {program}", file=sys.stderr)
    return False


def compiled(room, name):
    """A program of examples/c that knows nothing of balloc; the compiler answers no call of malloc itself."""
    subprocess.run([os.environ.get("CC", "cc"), "-std=c11", "-O2", "-fno-builtin", "-Wall", "-Wextra", "-Werror", "-pthread",
                    f"{TOP}/examples/c/{name}.c", "-o", f"{room}/{name}"], check=True)
    return f"{room}/{name}"


class Run:
    """A run of a program over an allocator: its status, text, milliseconds of processor time and MB."""

    def __init__(self, room, words, library):
        env = dict(os.environ, PYTHONMALLOC="malloc", LC_ALL="C.UTF-8")
        for name in ["LD_PRELOAD", "BALLOC_STATS"]:
            env.pop(name, None)
        ran = subprocess.run([f"{room}/measure", f"{room}/used", library or "", *words], stdout=subprocess.PIPE,
                             stderr=subprocess.STDOUT, env=env, check=False)
        self.status, self.text = ran.returncode, ran.stdout
        with open(f"{room}/used") as used:
            microseconds, kilobytes = map(int, used.read().split())
        self.time, self.memory = microseconds / 1e3, kilobytes / 1024


def to_the_best(found, what):
    """What balloc's figure is of the best other one's: of each, the median of what it is in one turn."""
    return max(statistics.median(getattr(ours, what) / getattr(its, what) for ours, its in zip(found["balloc"], of))
               for name, of in found.items() if name != "balloc")


def compare(room, words, allocators, runs):
    """The median time and memory over each allocator, with balloc's to the best; and what differs from the first one's first
    run."""
    first, found, wrong = None, {name: [] for name in allocators}, []
    for _ in range(runs):
        for name, library in allocators.items():
            run = Run(room, words, library)
            first = first or run
            if run.status != 0 or run.text != first.text:
                wrong.append(f"{name}: status {run.status}, {'the same' if run.text == first.text else 'another'} text")
            found[name].append(run)
    medians = {name: tuple(statistics.median(getattr(it, what) for it in of) for what in ["time", "memory"])
               for name, of in found.items()}
    medians["to the best"] = tuple(to_the_best(found, what) for what in ["time", "memory"])
    return medians, wrong


def table(heading, figures, allocators, which):
    """A table of one of the figures: a row for each program, and balloc's to the best of the others."""
    print(f"\n{heading}\n\n" + timed.table_head(["", *allocators, "to the best"]))
    for program, of in figures.items():
        cells = [f"{of[name][which]:.1f}" for name in allocators]
        print(timed.row([program, *cells, f"{of['to the best'][which]:.2f}"]), flush=True)


def try_programs(room, library, options):
    allocators = dict(timed.allocators(), balloc=library)
    figures, failed = {}, 0
    for name, words in programs(room, options.python).items():
        if options.only and name not in options.only.split(","):
            continue
        figures[name], wrong = compare(room, words, allocators, options.runs)
        print(f"{name}: {'; '.join(wrong) or 'the same text over all'}", file=sys.stderr, flush=True)
        failed += bool(wrong)
    print(f"{os.cpu_count()} processors, load {os.getloadavg()[0]:.1f}, the median of {options.runs} runs by turns")
    table("Milliseconds of processor time:", figures, allocators, 0)
    table("Most memory, MB:", figures, allocators, 1)
    return failed


def ends_well(name, words, library):
    status = subprocess.run(words, env=dict(os.environ, LD_PRELOAD=library), check=False).returncode
    print(f"{name}: {'ended well' if status == 0 else f'status {status}'}", flush=True)
    return status == 0


def passed(python, library):
    """What CPython's tests say, each with its outcome."""
    env = dict(os.environ, PYTHONMALLOC="malloc", LD_PRELOAD=library)
    text = subprocess.run([python, "-m", "test", "-j2", *TESTS], env=env, stdout=subprocess.PIPE, stderr=subprocess.STDOUT,
                          text=True, errors="replace", check=False).stdout
    found = dict(re.findall(r"\] (test_\w+) ([^\n(]*\w)", text))
    print(f"{'balloc' if library else 'glibc'}: {found or text}", flush=True)
    return found


def try_cpython(python, library):
    over_glibc, over_balloc = passed(python, ""), passed(python, library)
    return not (set(TESTS) <= set(over_glibc) and over_balloc == over_glibc)


def try_stress(room, folder, library):
    subprocess.run(["cc", "-O2", "-DUSE_STD_MALLOC", "-pthread", f"{folder}/test/test-stress.c", "-o", f"{room}/stress"],
                   check=True)
    return not ends_well("mimalloc's stress", [f"{room}/stress", "32", "50", "20"], library)


def main():
    parser = argparse.ArgumentParser(usage=__doc__)
    parser.add_argument("--runs", type=int, default=5)
    parser.add_argument("--only", default="")
    parser.add_argument("--library")
    parser.add_argument("--python", default="/usr/bin/python3")
    parser.add_argument("--cpython", action="store_true")
    parser.add_argument("--stress")
    options = parser.parse_args()
    library = os.path.abspath(options.library or build())
    with tempfile.TemporaryDirectory() as room:
        if not ends_well("answers", [compiled(room, "answers")], library):
            return 1
        if options.cpython:
            return try_cpython(options.python, library)
        if options.stress:
            return try_stress(room, options.stress, library)
        timed.compiled(MEASURE, "measure", room)
        return 1 if try_programs(room, library, options) else 0


if __name__ == "__main__":
    sys.exit(main())
