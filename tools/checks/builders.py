"""What crates over the heap take from its proofs: the laws of live_heap/proofs/laws_for_builders alone. The folder's README
lists each once.
"""

import re
from collections import Counter

from checks import ROOT

HEAP = ROOT / "crates/live_heap"
FOLDER = "laws_for_builders"
TAKES = re.compile(r"live_heap(?:\.|::)proofs(?:\.|::)([\w.:]+?)(?:(?:\.|::)\{([^}]+)\})?(?:[ ;)]|$)", re.M)
GIVES = re.compile(r"^pub use \S+\.\{(.+)\}$", re.M)
LISTED = re.compile(r"^\| `(\w+)` \| (.+?) \|", re.M)


def names_in(text, new=False):
    """The names of a list in braces, each as it is where it comes from, or as it is called from there on."""
    return [name.split(" as ")[-1 if new else 0].strip() for name in text.split(",")]


def taken():
    """What crates outside take: the file, the module and the names of each line."""
    for path in sorted((ROOT / "crates").glob("*/**/*.*")):
        if path.suffix in (".antt", ".rt") and HEAP not in path.parents:
            for module, names in TAKES.findall(path.read_text()):
                yield path.relative_to(ROOT), module.replace("::", "."), names_in(names)


def given():
    """The laws of each module of the folder."""
    return {path.stem: {name for names in GIVES.findall(path.read_text()) for name in names_in(names, new=True)}
            for path in sorted((HEAP / "proofs" / FOLDER).glob("*.antt"))}


def complaints():
    laws = given()
    for path, module, names in taken():
        if not module.startswith(f"{FOLDER}."):
            yield f"{path}: takes {', '.join(names) or 'all'} from {module} of live_heap/proofs, which is no law for builders"
    readme = HEAP / "proofs" / FOLDER / "README.md"
    listed = Counter((module, name) for module, row in LISTED.findall(readme.read_text()) for name in re.findall(r"`([\w-]+)`", row))
    for module, names in laws.items():
        for name in sorted(names):
            if listed[module, name] != 1:
                yield f"{FOLDER}/README.md: lists {name} of {module} {listed[module, name]} times"
    for module, name in sorted(set(listed) - {(module, name) for module, names in laws.items() for name in names}):
        yield f"{FOLDER}/README.md: {module} has no {name}"


def summary():
    lines = list(taken())
    return f"{sum(map(len, given().values()))} laws in {len(given())} modules, {len(lines)} lines that take some"
