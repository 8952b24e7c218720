"""The definitions by cases over points and exits, beside 'The tables over the points' in docs/PROOFS.md.

A definition of crates/*/specs with a variant of a point or an exit on its left side is a table. It has a default line
where a line of it names none. The document has each of them, in the column that is its own; the tables of a part's own
specs are there by the names of the one of superblocks, those with a default by their own. The listing has each table with
the types that it goes over, and `default` where it has such a line. It reads lines, and proves nothing.
"""

import re

from checks import ROOT

PARTS = ("step_parts",)
HEADING = "### The tables over the points"
USED = re.compile(r"use Rattle\.[\w.]*\.(?:point|exit)\.(\w*(?:Point|Exit))\.TheVariants(?: as (\w+)|\.\{([^}]*)\})")
LINE = re.compile(r"^([A-Za-z_][\w-]*)((?: +(?:\([^=]*?\)|[\w.\[\]]+))*) *=(?: |$)")


def tables_of(text):
    """The tables of a file: each name with the types that it goes over, and whether it has a default line."""
    aliases, variants = {}, {}
    for kind, alias, names in USED.findall(text):
        if alias:
            aliases[alias] = kind
        for name in filter(None, (name.strip() for name in names.split(","))):
            variants[name] = kind
    lines = {}
    for name, left in (match.groups() for match in map(LINE.match, text.splitlines()) if match):
        over = {aliases[alias] for alias, _ in re.findall(r"\b(\w+)\.(\w+)", left) if alias in aliases}
        over |= {variants[word] for word in re.findall(r"\b[A-Z]\w*", left) if word in variants}
        lines.setdefault(name, []).append(over)
    for name, all_over in lines.items():
        over = set().union(*all_over)
        if over:
            yield name, over, not all(all_over)


def tables():
    """All tables in specs: crate, name, types, whether with a default line."""
    for path in sorted(ROOT.glob("crates/*/specs/**/*.antt")):
        crate = path.relative_to(ROOT / "crates").parts[0]
        for name, over, default in tables_of(path.read_text()):
            yield crate, name, over, default


def complaints():
    before, heading, section = (ROOT / "docs" / "PROOFS.md").read_text().partition(HEADING)
    if not heading:
        yield f"docs/PROOFS.md has no heading {HEADING}"
        return
    told = set(re.findall(r"`(\w+)`", section))
    columns = {}
    for line in section.splitlines():
        cells = [cell.strip() for cell in line.strip("|").split("|")]
        if line.startswith(("| `", "| the part")) and len(cells) == 3:
            columns[cells[0].strip("`")] = [set(re.findall(r"`(\w+)`", cell)) for cell in cells[1:]]
    for crate, name, over, default in tables():
        if crate in PARTS and not default:
            continue
        of_parts = any(kind.endswith("Point") and kind != "Point" for kind in over)
        if of_parts and name not in columns.get("the part" if crate in PARTS else crate, [set(), set()])[default]:
            yield f"docs/PROOFS.md has not `{name}` of {crate}, {'with' if default else 'without'} a default line"
        elif name not in told and not (over == {"Point"} and default):
            yield f"docs/PROOFS.md has not `{name}` of {crate}"


def listing():
    for crate, name, over, default in tables():
        yield " ".join(filter(None, [crate, name, ", ".join(sorted(over)), "default" if default else ""]))


def summary():
    return f"{len(list(tables()))} tables over the points"
