"""How many words the documents have, beside the most that each may have, and all together.

Words are counted as `wc -w` does. What a tool writes isn't counted: the table of the gate by crate in docs/TESTING.md
(tools/gate_times.py), and the tables of docs/STEPS.md between their marks (tools/step_tables.py).
"""

import re

from checks import ROOT, listed_crates

ALL = 25_000
MOST = {
    "docs/PROOFS.md": 5_600,
    "docs/ALLOCATOR.md": 4_100,
    "docs/TRACES.md": 2_700,
    "docs/ARCHITECTURE.md": 2_500,
    "docs/DECISIONS.md": 2_500,
    "docs/IDEA.md": 1_600,
    "docs/PERFORMANCE.md": 1_800,
    "docs/STEPS.md": 600,
    "docs/TOUR.md": 1_200,
    "docs/TESTING.md": 1_000,
    "docs/OPEN.md": 950,
    "README.md": 920,
}
# These have a most of their own, and don't count in the sum.
BESIDE = {"CONTRIBUTING.md": 1_200, "CHANGELOG.md": 900}
OF_A_CRATE = 200
WRITTEN_TABLES = {"docs/TESTING.md": "| crate |"}
WRITTEN_PART = re.compile(r"<!-- \S+ writes from here -->.*?<!-- to here -->", re.S)


def words_of(name):
    """The words of a document, without tables that a tool writes."""
    lines = WRITTEN_PART.sub("", (ROOT / name).read_text()).splitlines()
    head = WRITTEN_TABLES.get(name)
    if head:
        first = next((at for at, line in enumerate(lines) if line.startswith(head)), len(lines))
        behind = next((at for at in range(first, len(lines)) if not lines[at].startswith("|")), len(lines))
        del lines[first:behind]
    return len(" ".join(lines).split())


def of_crates():
    return {f"crates/{crate}/README.md": OF_A_CRATE for crate in listed_crates()}


def summed():
    return sum(words_of(name) for name in MOST if (ROOT / name).is_file())


def complaints():
    for name, most in {**MOST, **BESIDE, **of_crates()}.items():
        if not (ROOT / name).is_file():
            yield f"there is no {name}"
        elif words_of(name) > most:
            yield f"{name} has {words_of(name):,} words, and may have {most:,}"
    for document in sorted(ROOT.glob("docs/*.md")):
        if str(document.relative_to(ROOT)) not in MOST:
            yield f"{document.relative_to(ROOT)} has no most in tools/checks/words.py"
    if summed() > ALL:
        yield f"the documents have {summed():,} words, and may have {ALL:,}"


def listing():
    for name, most in {**MOST, **BESIDE}.items():
        yield f"{words_of(name) if (ROOT / name).is_file() else 0:7,} of {most:6,} {name}"
    yield f"{summed():7,} of {ALL:6,} in all, CONTRIBUTING.md, CHANGELOG.md and those of crates apart"
    for name, most in of_crates().items():
        yield f"{words_of(name) if (ROOT / name).is_file() else 0:7,} of {most:6,} {name}"


def summary():
    return f"words of {len(MOST) + len(BESIDE)} documents, {summed():,} of {ALL:,} in all, and of those of crates"
