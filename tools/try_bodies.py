#!/usr/bin/env python3
"""Tries the wrong bodies that no proof refuses, and only a run tells from the right ones: the edits in
test-must-fail/ of a crate.

    tools/try_bodies.py [CRATE ..]

Run it when a crate with such edits or one of the tests that they name has changed, and before a release. Such a file is an
edit as those in must-fail/, with lines `# fails: CRATE TEST`, which name a test, or `# fails: PROGRAM`, which name a
program with its stored run. Each body of the named crates, or of all, is put in place in a copy of the work tree. There its
crate has to be proved, by `rt check`: a body that a proof refuses belongs into must-fail/. Then each test that it names has
to fail, and each program has to write something else, or to end with another status, than what is stored. Prints what was
seen of each body, and ends with 1 where one was refused or not noticed. On a machine where `rt ci` has passed a body takes
minutes: what stands on the edited crate is checked again.
"""

import subprocess
import sys
import tempfile
from pathlib import Path

from try_edits import ROOT, copy_tree


class Body:
    """A wrong body: the new texts of files of its crate, and where it has to show."""

    def __init__(self, file, room):
        self.name = file.stem
        self.crate = room / "crates" / file.parent.parent.name
        self.texts, self.was, self.shows = {}, {}, []
        for line in file.read_text().splitlines():
            key, _, rest = line.partition(":")
            # One space behind the colon is not the text's own.
            rest = rest.removeprefix(" ")
            if key == "# fails":
                self.shows.append(rest.split())
            elif key == "file":
                path = self.crate / rest
                self.was[path] = self.texts[path] = path.read_text()
            elif key == "old":
                old = rest
            elif key == "new":
                if self.texts[path].count(old) != 1:
                    sys.exit(f"{file}: the text behind 'old:' stands {self.texts[path].count(old)} times in {path.name}")
                self.texts[path] = self.texts[path].replace(old, rest)
        if not self.texts or not self.shows:
            sys.exit(f"{file}: it edits nothing, or names nothing that fails")


def rt(folder, *words, given=None):
    with open(given or "/dev/null", "rb") as source:
        return subprocess.run(["rt", *words], cwd=folder, stdin=source, capture_output=True, text=True)


def stored(folder, name, default=""):
    return (folder / name).read_text() if (folder / name).is_file() else default


def fault_of_test(folder, test):
    """Why the crate's test failed; None where it passed."""
    lines = rt(folder, "test", "--", test).stdout.splitlines()
    told = [line for line in lines if line.startswith("test ") and test in line and " ... " in line]
    if not told:
        sys.exit(f"{test} did not run: {lines[-1:]}")
    return f"{test} failed" if told[0].endswith("FAILED") else None


def fault_of_program(folder):
    """What a program did otherwise than its stored run has it; None where it did the same."""
    given = folder / "stdin" if (folder / "stdin").is_file() else None
    ran = rt(folder, "run", "--", *stored(folder, "args").split("\n")[:-1], given=given)
    if "rt: running " not in ran.stderr:
        sys.exit(f"{folder.name} was not built: {ran.stderr.splitlines()[-1:]}")
    if ran.stdout != stored(folder, "stdout"):
        return f"{folder.name} wrote another text"
    status = int(stored(folder, "status", "0"))
    return f"{folder.name} ended with {ran.returncode}" if ran.returncode != status else None


def tried(body, room):
    """What was seen of a body, and whether it is proved and each of its runs failed."""
    checked = rt(body.crate, "check")
    if checked.returncode:
        return f"REFUSED: {checked.stdout.splitlines()[-1:]}", False
    seen, is_well = ["proved"], True
    for crate, *test in body.shows:
        folder = room / "crates" / crate
        fault = fault_of_test(folder, *test) if test else fault_of_program(folder)
        seen.append(fault or f"NOT NOTICED by {' '.join([crate, *test])}")
        is_well = is_well and fault is not None
    return ", ".join(seen), is_well


def main():
    names = sys.argv[1:]
    failed = 0
    with tempfile.TemporaryDirectory(prefix="bodies-") as room:
        room = Path(room)
        copy_tree(room)
        files = sorted(room.glob("crates/*/test-must-fail/*.edit"))
        files = [it for it in files if not names or it.parent.parent.name in names]
        for body in [Body(it, room) for it in files]:
            for path, text in body.texts.items():
                path.write_text(text)
            seen, is_well = tried(body, room)
            failed += not is_well
            print(f"{body.crate.name}/{body.name}: {seen}", flush=True)
            for path, text in body.was.items():
                path.write_text(text)
    print(f"{len(files) - failed} of {len(files)} bodies are proved and fail where they have to")
    sys.exit(failed > 0 or not files)


if __name__ == "__main__":
    main()
