"""What tools/check.py looks at, a module a check: each has `complaints`, which yields what isn't so, and `summary`, what
was looked at. Some have `listing` too, which is printed where that check alone is asked for."""

from pathlib import Path

ROOT = Path(__file__).resolve().parents[2]


def all_documents():
    """All documents: those at the top, those of docs/, and each crate's own."""
    return [it for pattern in ("*.md", "docs/*.md", "crates/*/README.md") for it in sorted(ROOT.glob(pattern))]


def listed_crates():
    """The crates of crates.txt in its order, each with the names that it lists for it."""
    lines = [line.split("#")[0].strip() for line in (ROOT / "crates.txt").read_text().splitlines()]
    return {line.split(":")[0].split()[0]: line.partition(":")[2].split() for line in lines if line}
