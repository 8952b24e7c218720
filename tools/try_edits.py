#!/usr/bin/env python3
"""Tries the wrong bodies that the gate leaves out: the edits in also-must-fail/ of a crate.

    tools/try_edits.py [CRATE ..]

Run it with the name of a crate whose contracts, definitions or answers have changed, and of those above whose contracts
cite them, and with none before a release. The gate tries the few edits of a crate that tell most, those in must-fail/. This
tries the others, of the named crates or of all, in a copy of the work tree where they stand in place of those: `rt ci` with
these crates' names, which takes what an earlier run of it proved on this machine, proves each crate once more and tries
each edit over that. Where the kit's `rt ci` takes no names, `rt must-fail` does it, which first proves what lies below on
one processor. Prints what rt says of each edit, and at the end how many were refused and how long it took; ends with 1
where one is not.
"""

import resource
import shutil
import subprocess
import sys
import tempfile
import time
from pathlib import Path

ROOT = Path(__file__).resolve().parent.parent


def copy_tree(to):
    """Copies the files of the work tree that git knows or would add."""
    listed = subprocess.run(
        ["git", "ls-files", "-z", "--cached", "--others", "--exclude-standard"],
        cwd=ROOT, check=True, capture_output=True, text=True,
    )
    for name in filter(None, listed.stdout.split("\0")):
        if (ROOT / name).is_file():
            (to / name).parent.mkdir(parents=True, exist_ok=True)
            shutil.copy2(ROOT / name, to / name)


def put_in_place(crate):
    """Lets the edits of also-must-fail/ be the crate's only ones."""
    shutil.rmtree(crate / "must-fail", ignore_errors=True)
    (crate / "also-must-fail").rename(crate / "must-fail")


def try_in(room, names):
    """Has rt try the edits of these crates; answers what it said of each, its last line, and its status."""
    for verb in ("ci", "must-fail"):
        ran = subprocess.run(["rt", verb, *names], cwd=room, capture_output=True, text=True)
        lines = ran.stdout.splitlines()
        edits = [it for it in lines if it.startswith("rt: must-fail")]
        if edits:
            break
    return edits, lines[-1:], ran.returncode


def main():
    has_edits = sorted({it.parent.parent.name for it in ROOT.glob("crates/*/also-must-fail/*.edit")})
    names = sys.argv[1:] or has_edits
    lacking = [it for it in names if it not in has_edits]
    if lacking:
        sys.exit(f"{lacking[0]} has no folder also-must-fail")
    began = time.monotonic()
    with tempfile.TemporaryDirectory(prefix="edits-") as room:
        copy_tree(Path(room))
        for name in names:
            put_in_place(Path(room) / "crates" / name)
        edits, last, status = try_in(room, names)
    refused = sum(": refused" in it for it in edits)
    print(*edits, *[it for it in last if it not in edits], sep="\n")
    print(f"{refused} of {len(edits)} edits refused, those of crates below among them where rt tries them too")
    used = resource.getrusage(resource.RUSAGE_CHILDREN)
    minutes, seconds = (time.monotonic() - began) / 60, used.ru_utime + used.ru_stime
    print(f"{minutes:.0f} minutes by the clock, {seconds:.0f} seconds of processor time")
    sys.exit(status or refused < len(edits))


if __name__ == "__main__":
    main()
