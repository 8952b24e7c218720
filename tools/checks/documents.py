"""Names, links, quotes and lists of the documents that lead nowhere, or that the tree has otherwise.

A link has to lead to a file of the repository, and to a heading of it where it names one. A name between backticks that
could be one of the code (`word_behind`, `HasStepped`, `live_heap/specs/Calls`, `run_lanes.rt`) has to be a word of the
crates or of the tools, one of the kit's that KIT lists, or the path of a file; in CHANGELOG.md, which tells of what was
there then, it needn't. A block of code that names a file behind its language (```rust crates/worked_programs/src/relay.rt)
quotes it: its lines stand in that file, in this order, comments apart. The table of crates in docs/ARCHITECTURE.md has each
crate of crates.txt once, in its order; some file of a crate has the name of each crate that crates.txt lists for it, and
NOTICE a paragraph for each of the kit's; README's lines on what isn't proved begin with the headings of docs/OPEN.md; and
the counts that a document says in the words of COUNTED are those of the tree.
"""

import re

from checks import ROOT, all_documents, listed_crates

LINK = re.compile(r"\]\(([^)#]*)(#[^)]*)?\)")
ROW = re.compile(r"^\| `(\w+)` \|")
CODE = re.compile(r"`([^`]+)`")
NAME = re.compile(r"[A-Za-z][A-Za-z0-9]*(?:[_-][A-Za-z0-9]+)+|[A-Z][a-z0-9]+(?:[A-Z][a-z0-9]*)+")
PATH = re.compile(r"[a-z_]+(?:/[A-Za-z0-9_+.-]+)+|[A-Za-z0-9_]+\.(?:rt|antt|py|md|edit|txt|trace)")
KIT = {"wake_one", "wake_all"}
NUMBERS = {word: number for number, word in enumerate(
    "one two three four five six seven eight nine ten eleven twelve thirteen fourteen fifteen sixteen".split(), 1)}
COUNTED = [
    (r"(?:[Tt]his tree has|now there are) (\d+)(?: crates)?", "crates/*/src"),
    (r"(\w+) traces with their reports", "traces/*.trace"),
    (r"[Tt]his tree has \d+ crates and (\d+) edits|(\d+) in must-fail/", "crates/*/must-fail/*.edit"),
    (r"(\d+) (?:more )?(?:stand )?in also-must-fail/", "crates/*/also-must-fail/*.edit"),
    (r"(\d+) in test-must-fail/", "crates/*/test-must-fail/*.edit"),
    (r"[Tt]ests stand in (\w+) crates|The (\w+) crates of tests", "crates/*_tests"),
]


def files():
    """Every file and folder of the tree but what is built or git's."""
    return [path for path in ROOT.rglob("*") if not {"out", ".git", "__pycache__"} & set(path.relative_to(ROOT).parts)]


def words_of_the_code(paths):
    """Every word of the crates, of the tools and of what lies beside them, also joined by - as in proofs."""
    words = set()
    for path in filter(lambda path: path.is_file(), paths):
        words.update(path.relative_to(ROOT).parts)
        words.add(path.stem)
        if path.suffix in (".rt", ".antt", ".py", ".txt", ".edit", ".c", ".h"):
            text = path.read_text(errors="replace")
            words.update(re.findall(r"[A-Za-z0-9_]+(?:-[A-Za-z0-9_]+)*", text))
            words.update(re.findall(r"[A-Za-z0-9_]+", text))
    return words


def ends_of(paths):
    """The paths of all files, each from every folder on, with and without its ending: a document says
    `crate/specs/Module` for crates/crate/specs/Module, and `crate/src/file.rt`."""
    ends = set()
    for path in paths:
        parts = path.relative_to(ROOT).with_suffix("").parts if path.is_file() else path.relative_to(ROOT).parts
        for first in range(len(parts)):
            ends.add("/".join(parts[first:]))
            ends.add("/".join((*parts[first:-1], path.name)))
    return ends


def unquoted(document):
    """The lines of quotes that the quoted file doesn't have, or not in this order."""
    left = None
    for number, line in enumerate(document.read_text().splitlines(), 1):
        if line.startswith("```"):
            named = line[3:].split()[1:]
            left = None
            if named and not (ROOT / named[0]).is_file():
                yield number, f"no file {named[0]}"
            elif named:
                left = [bare(row) for row in (ROOT / named[0]).read_text().splitlines()]
        elif left is not None and bare(line):
            if bare(line) in left:
                left = left[left.index(bare(line)) + 1:]
            else:
                yield number, f"the file doesn't go on with {bare(line)}"


def bare(line):
    """A line without a comment behind it."""
    return line.split("//")[0].strip()


def headings(document):
    """The headings of a document, as links name them."""
    lines = [line.lstrip("#").strip() for line in document.read_text().splitlines() if line.startswith("#")]
    return {"#" + re.sub(r"[^\w -]", "", line.lower()).replace(" ", "-") for line in lines}


def crates_in_order():
    """What the map says of the crates and crates.txt doesn't, or the other way."""
    listed = list(listed_crates())
    text = (ROOT / "docs" / "ARCHITECTURE.md").read_text().split("## What a crate must not know")[0]
    told = [row.group(1) for row in map(ROW.match, text.splitlines()) if row]
    if sorted(told) != sorted(listed):
        yield f"docs/ARCHITECTURE.md: crates of the map and of crates.txt differ: {sorted(set(told) ^ set(listed))}"
    elif told != listed:
        yield "docs/ARCHITECTURE.md: the map has not the order of crates.txt"


def unnamed_crates():
    """What crates.txt lists for a crate and no file of it names."""
    for name, listed in listed_crates().items():
        crate = ROOT / "crates" / name
        texts = [path.read_text() for folder in ("src", "specs", "proofs") for path in (crate / folder).rglob("*.*t")]
        words = set(re.findall(r"\w+", "\n".join(texts)))
        for other in listed:
            if other not in words:
                yield f"crates.txt lists {other} for {name}, and no file of it names that"


def unnoticed_crates():
    """The kit's crates that crates.txt names and NOTICE doesn't."""
    listed = listed_crates()
    heads = re.findall(r"^[a-z].*", (ROOT / "NOTICE").read_text(), re.M)
    told = {name for head in heads for name in head.split(", ")}
    for name in sorted({name for names in listed.values() for name in names} - set(listed) - told):
        yield f"NOTICE doesn't name {name}, which crates.txt does"


def open_lines():
    """The headings of docs/OPEN.md that no line of README begins with, and the other way."""
    begins = (ROOT / "README.md").read_text().partition("**Not proved**")[2].partition("**Trusted")[0]
    said = {line[2:].split(":")[0].lower() for line in begins.splitlines() if line.startswith("- ")}
    told = (ROOT / "docs" / "OPEN.md").read_text().splitlines()
    heads = {line[3:].lower() for line in told if line.startswith("## ") and line != "## Trusted"}
    for line in sorted(said ^ heads):
        yield f"a line of README.md on what isn't proved, or a heading of docs/OPEN.md, stands alone: {line}"


def counts(document):
    """The counts that a document says and that the tree hasn't."""
    for pattern, paths in COUNTED:
        for said in re.finditer(pattern, document.read_text()):
            word = next(filter(None, said.groups()))
            told = int(word) if word.isdigit() else NUMBERS.get(word.lower())
            found = len(list(ROOT.glob(paths)))
            if told is not None and told != found:
                yield f"'{said.group(0)}', and there are {found} {paths}"


def of_line(document, line, words, ends):
    for target, heading in LINK.findall(line):
        if "://" in target:
            continue
        file = document.parent / target if target else document
        if not file.exists():
            yield f"no file {target}"
        elif heading and heading not in headings(file):
            yield f"no heading {target}{heading}"
    if document.name == "CHANGELOG.md":
        return
    for code in CODE.findall(line):
        if PATH.fullmatch(code):
            if code not in ends and code.rstrip("/") not in ends and not set(code.split("/")) <= words:
                yield f"no file `{code}`"
        elif NAME.fullmatch(code) and code not in words | KIT:
            yield f"no name `{code}`"


def complaints():
    paths = files()
    words, ends = words_of_the_code(paths), ends_of(paths)
    for document in all_documents():
        name = document.relative_to(ROOT)
        for number, what in unquoted(document):
            yield f"{name}:{number}: {what}"
        for number, line in enumerate(document.read_text().splitlines(), 1):
            for what in of_line(document, line, words, ends):
                yield f"{name}:{number}: {what}"
        for what in counts(document):
            yield f"{name}: {what}"
    yield from crates_in_order()
    yield from unnamed_crates()
    yield from unnoticed_crates()
    yield from open_lines()


def summary():
    return f"names, links and lists of {len(all_documents())} documents"
