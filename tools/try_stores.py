#!/usr/bin/env python3
"""Makes random scripts of calls on stores in heaps of all sorts, each beside plain lists, while another caller of
the heap gets and frees blocks: by turns on one thread, and one script of ten on two threads.

    tools/try_stores.py PROGRAM SEED SCRIPTS CALLS

Run it when stores, or the calls of the heap that they make, have changed. PROGRAM is the built one, as
crates/benches/out/benches. It draws each script from its number, and counts the answers and lists that are not those of the
plain lists. The last line sums up; ends with 1 where one differs, and says where.
"""

import random
import sys
from collections import Counter

from random_runs import scripts


def plan_of(rng, number, calls):
    """The words of a script: on what it runs, its number, its calls, and a small heap of two callers."""
    company = "threads" if number % 10 == 0 else "turns"
    return ["store", company, number, calls, 2, rng.randrange(1, 25), rng.randrange(1, 3), 0]


def main():
    program, seed, count, calls = sys.argv[1:]
    rng = random.Random(int(seed))
    plans = [plan_of(rng, int(seed) + number, calls) for number in range(int(count))]
    sums, wrong = Counter(), 0
    for _, told in scripts(program, plans):
        wrong += told is None
        sums.update(told or {})
    print("scripts", len(plans), *(word for item in sums.items() for word in item))
    return 1 if wrong else 0


if __name__ == "__main__":
    sys.exit(main())
