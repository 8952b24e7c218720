#!/usr/bin/env python3
"""Compares what the documents, the headers for C and the pictures say with the tree; no gate does.

    tools/check.py [NAME ..]          all that needs no built program, or those that are named
    tools/check.py traces PROGRAM     the traces of traces/ beside their reports; PROGRAM is the built one, as
                                      crates/balloc/out/balloc

Run it before each commit, which takes some seconds, and `traces` once the program is built. Names are

    documents   names, links, quotes and lists that lead nowhere, and counts that the tree hasn't
    words       the words of each document and of all, beside the most that they may have
    twice       sentences that stand in two places
    header      balloc.h and balloc_malloc.h beside the exports of their crates, and the version
    points      the tables over the points, beside docs/PROOFS.md
    pictures    the pictures beside what they are drawn from, and the figures of docs/PERFORMANCE.md beside each other
    steps       the tables of docs/STEPS.md beside the code
    builders    what crates over the heap take from its proofs

Prints what isn't so, a line each, and ends with 1 where there is something. A check that is named alone prints what it
has looked at, too: `words` each document's, `points` each table. tools/checks/ has what each asks for.
"""

import signal
import sys

from checks import builders, documents, header, pictures, points, steps, traces, twice, words

CHECKS = {"documents": documents, "words": words, "twice": twice, "header": header, "points": points, "pictures": pictures,
          "steps": steps, "builders": builders}


def report(name, check, *given, listed=False):
    """Prints what a check finds, and how many it is; answers whether there is something."""
    found = list(check.complaints(*given))
    if listed and hasattr(check, "listing"):
        print(*check.listing(), sep="\n")
    print(*found, f"{name}: {check.summary()}: {len(found)} complaints", sep="\n", flush=True)
    return bool(found)


def main():
    names = sys.argv[1:]
    if names[:1] == ["traces"] and len(names) == 2:
        return int(report("traces", traces, names[1]))
    if not set(names) <= set(CHECKS):
        sys.exit(__doc__)
    return int(max([report(name, CHECKS[name], listed=len(names) == 1) for name in names or CHECKS]))


if __name__ == "__main__":
    # Ends quietly where nobody reads on, as behind `| head`.
    signal.signal(signal.SIGPIPE, signal.SIG_DFL)
    sys.exit(main())
