#!/usr/bin/env python3
"""Compares the clauses of all public functions at two revisions.

    tools/compare_clauses.py BEFORE AFTER

Run it behind a change that was to leave the clauses as they are, and before a release, for what CHANGELOG.md has to say of
them. BEFORE and AFTER are revisions of git. A function is the same one by its name and by the type or the trait that has
it, wherever its file lies. Prints how many functions stand as they were, and then each one that moved to another file, that
changed, that went and that came, a changed one with the clauses that went (-) and came (+). A name that was changed on the
way shows in each clause that has it.
"""

import re
import subprocess
import sys
from collections import defaultdict

FUNCTION = re.compile(r"^(\s*)pub (?:const )?(?:extern \"C\" )?(?:unsafe )?fn (\w+)|^(\s+)fn (\w+)")
OWNER = re.compile(r"^(?:pub )?(?:impl|trait|pub trait)(?:<[^{]*?>)? +(.*?)\s*\{?$")
CLAUSE = re.compile(r"^\s+(?:requires|ensures|always)\b")


def git(*words):
    return subprocess.run(["git", *words], capture_output=True, text=True, check=True).stdout


def functions(revision):
    """The clauses of each public function of a revision, by its owner and its name: (file, clauses)."""
    found = defaultdict(list)
    listed = git("ls-tree", "-r", "--name-only", revision, "crates").splitlines()
    for path in (p for p in listed if p.endswith(".rt")):
        text = git("show", f"{revision}:{path}")
        owner, in_trait, name, clauses, clause = "", False, None, [], None

        def close():
            nonlocal name, clauses, clause
            if clause:
                clauses.append(" ".join(clause.split()))
            if name is not None:
                found[(owner, name)].append((path, tuple(sorted(clauses))))
            name, clauses, clause = None, [], None

        for line in text.splitlines():
            opened = re.match(r"^(?:pub )?(?:unsafe )?(impl|trait)\b(.*)", line)
            if opened:
                close()
                head = opened.group(2)
                head = re.sub(r"^<[^>]*>", "", head).split("{")[0].strip()
                owner, in_trait = head.split(":")[0].strip() if opened.group(1) == "trait" else head, opened.group(1) == "trait" or " for " in head
                continue
            if line.startswith("}"):
                close()
                owner, in_trait = "", False
                continue
            started = FUNCTION.match(line)
            if started:
                close()
                public = started.group(2)
                name = public or (started.group(4) if in_trait else None)
                continue
            if name is None:
                continue
            if CLAUSE.match(line):
                if clause:
                    clauses.append(" ".join(clause.split()))
                clause = line.strip()
            elif line.strip() in ("{", "{}", "") or line.strip().startswith("{"):
                close()
            elif clause:
                clause += " " + line.strip()
        close()
    return found


def main():
    if len(sys.argv) != 3:
        sys.exit(__doc__)
    before, after = functions(sys.argv[1]), functions(sys.argv[2])
    same, moved, changed, gone = 0, [], [], []
    for key, old in sorted(before.items()):
        new = after.get(key, [])
        left = list(new)
        for path, clauses in old:
            twin = next((n for n in left if n == (path, clauses)), None) or next((n for n in left if n[1] == clauses), None) or next(
                (n for n in left if n[0] == path), None) or (left[0] if left else None)
            if twin is None:
                gone.append((key, path))
                continue
            left.remove(twin)
            if twin[1] != clauses:
                changed.append((key, path, twin[0], clauses, twin[1]))
            elif twin[0] != path:
                moved.append((key, path, twin[0]))
            else:
                same += 1
    came = [(key, path) for key, new in sorted(after.items()) for path, _ in new[len(before.get(key, [])):]]
    print(f"{same} as they were, {len(moved)} moved, {len(changed)} changed, {len(gone)} gone, {len(came)} new")
    for (owner, name), path, to in moved:
        print(f"moved: {owner}::{name} {path} -> {to}")
    for (owner, name), path, to, old, new in changed:
        print(f"changed: {owner}::{name} {path}" + (f" -> {to}" if to != path else ""))
        for clause in old:
            if clause not in new:
                print(f"  - {clause}")
        for clause in new:
            if clause not in old:
                print(f"  + {clause}")
    for (owner, name), path in gone:
        print(f"gone: {owner}::{name} {path}")
    for (owner, name), path in came:
        print(f"new: {owner}::{name} {path}")


if __name__ == "__main__":
    main()
