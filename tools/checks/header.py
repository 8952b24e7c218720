"""balloc.h and balloc_malloc.h, each beside the exports of its crate: each function with its parameters and their order,
each code with its number, and the limits of a heap; of balloc.h the layout of a pass and of a census, too. Each comment of
a function names only codes that there are. The version of balloc.h is that of the first heading of CHANGELOG.md.
"""

import re
from typing import NamedTuple

from checks import ROOT


class Page(NamedTuple):
    """A header of a crate: how its macros and codes begin, which files of the crate have the codes, what each limit is."""
    crate: str
    name: str
    prefix: str
    code_files: list
    limits: dict

    def text(self):
        return text_of(f"{self.crate}/include/{self.name}")


CRATE = "crates/balloc_c"
PAGES = [
    Page(CRATE, "balloc.h", "BALLOC_", ["lib.rt", "refusal.rt"],
         {"MOST_FRAMES": "MAX_FRAMES", "MOST_HEAPS": "MAX_HEAPS", "MOST_UNITS": "MAX_UNITS", "MOST_PASSES": "MAX_CALLERS",
          "MOST_TURNS": "MAX_TURNS", "MOST_WORDS": "LARGE_MOST", "MOST_DEPTH": "DEEPEST", "SHELVES": "SHELVES",
          "CLASSES": "CLASSES"}),
    Page("crates/balloc_malloc", "balloc_malloc.h", "BALLOC_MALLOC_", ["codes.rt"],
         {"MOST_FRAMES": "MAX_FRAMES", "MOST_HEAPS": "MAX_HEAPS", "MOST_SEATS": "MAX_CALLERS", "MOST_DEPTH": "DEEPEST",
          "MOST_BYTES": "8 * SMALL_MOST", "MOST_PIECES": "ROOM"}),
]
VERSION = ["BALLOC_VERSION_MAJOR", "BALLOC_VERSION_MINOR", "BALLOC_VERSION_PATCH"]
TYPES = {"": "void", "bool": "bool", "u8": "uint8_t", "u32": "uint32_t", "u64": "uint64_t", "i32": "int32_t", "usize": "size_t",
         "*mut u64": "void *", "Spot": "void *", "ThreadSeat": "balloc_seat", "PassHandle": "balloc_pass",
         "Bundle": "balloc_bundle", "Counted": "balloc_census"}


def text_of(path):
    return (ROOT / path).read_text(encoding="utf-8")


def c_parameters(name, kind):
    """The parameters of C for one of Rattle."""
    if kind == "Global":
        return []
    reference = re.fullmatch(r"&(mut )?(\[)?(.+?)\]?", kind)
    if reference is None:
        return [f"{TYPES[kind]} {name}".replace("* ", "*")]
    changes, is_slice, inner = reference.groups()
    pointer = f"{'' if changes else 'const '}{TYPES[inner]} *{name}".replace("* ", "*")
    return [pointer, "size_t count"] if is_slice else [pointer]


def exported(source):
    """Each export as its name and C's parameters."""
    found = {}
    pattern = r'#\[unsafe\(no_mangle\)\]\s*pub (?:unsafe )?extern "C" fn (\w+)\((.*?)\)(?:\s*->\s*(\w+))?'
    for name, inside, result in re.findall(pattern, source, flags=re.S):
        parameters = []
        for part in filter(None, (part.strip() for part in inside.split(","))):
            label, kind = (it.strip() for it in part.split(":"))
            parameters += c_parameters(label, kind)
        found[name] = (TYPES[result], parameters)
    return found


def declared(header):
    """Each declaration as its name and parameters."""
    found = {}
    for result, name, inside in re.findall(r"^(\w+) (balloc_\w+)\((.*?)\);", header, flags=re.S | re.M):
        found[name] = (result, [" ".join(part.split()) for part in inside.split(",")])
    return found


def rust_fields(path, name):
    """The fields of a struct of Rattle with their types, in their order."""
    inside = re.search(rf"pub struct {name} \{{(.*?)\n\}}", text_of(path), flags=re.S).group(1)
    return re.findall(r"^    pub (\w+): ([^{}\n]+),$", inside, flags=re.M)


def class_fields():
    return [(name, TYPES[kind]) for name, kind in rust_fields("crates/heap_census/src/census.rt", "ClassCount")]


def census_fields():
    """Those of a census, which lie in it one behind the other."""
    fields = []
    for name, kind in rust_fields(f"{CRATE}/src/counted.rt", "Counted"):
        if kind == "Census":
            for inner, its in rust_fields("crates/heap_census/src/census.rt", "Census"):
                is_row = its == "[ClassCount; CLASS_COUNT]"
                fields.append((f"{inner}[BALLOC_CLASSES]", "balloc_class_count") if is_row else (inner, TYPES[its]))
        else:
            fields.append((name, TYPES[kind]))
    return fields


def struct_fields(header, name):
    """The fields of a struct of C with their types, in their order."""
    inside = re.search(rf"typedef struct {name} \{{(.*?)\}} {name};", header, flags=re.S).group(1)
    return [(field.strip(), kind) for kind, names in re.findall(r"^    (\w+) ([^;]+);$", inside, flags=re.M)
            for field in names.split(",")]


def constants(source):
    """Each constant that is a number."""
    return {name: int(number.replace("_", ""), 0)
            for name, number in re.findall(r"^(?:pub )?const (\w+): \w+ = (-?\d\w*);", source, flags=re.M)}


def value_of(limit, there):
    """What a limit of a page stands for, or None where a constant of it isn't there."""
    return eval(limit, {}, there) if set(re.findall(r"[A-Z_]+", limit)) <= there.keys() else None


def defined(header):
    """Each macro that is a number."""
    return {name: int(number) for name, number in re.findall(r"^#define (BALLOC_\w+) (\d+)$", header, flags=re.M)}


def functions(page, header):
    exports, declarations = exported(text_of(f"{page.crate}/src/lib.rt")), declared(header)
    for name, (result, parameters) in exports.items():
        if declarations.get(name, ("",))[0] == "int32_t" and result == "uint32_t":  # `word_of`, balloc_c/specs/Codes
            exports[name] = ("int32_t", parameters)
    for name in sorted(exports.keys() | declarations.keys()):
        if exports.get(name) != declarations.get(name):
            yield f"{name}: exported as {exports.get(name)}, declared as {declarations.get(name)}"


def differences(ours, theirs):
    """Of the crate's numbers and the header's."""
    for name in sorted(ours.keys() | theirs.keys()):
        if name not in theirs or ours.get(name) != theirs[name]:
            yield f"{name}: {ours.get(name)} in the crate, {theirs.get(name)} in the header"


def codes(page, header):
    source = "".join(text_of(f"{page.crate}/src/{file}") for file in page.code_files)
    ours = {page.prefix + name: number for name, number in constants(source).items()}
    for name, number in re.findall(r"Refusal::(\w+) => (-?\d+),", source):
        ours[page.prefix + re.sub(r"(?<!^)(?=[A-Z])", "_", name).upper()] = int(number)
    theirs = {name: int(number) for name, number in re.findall(r"(BALLOC_\w+) = (-?\d+)", header)}
    yield from differences(ours, theirs)
    for comment, result, name in re.findall(r"/\*((?:(?!\*/).)*?)\*/\s*(\w+) (balloc_\w+)\(", header, flags=re.S):
        named = set(re.findall(r"BALLOC_\w+", comment)) - defined(header).keys()
        for constant in sorted(named - theirs.keys()):
            yield f"{name}: its comment names {constant}, which there is not"
        if result not in ["void", "size_t"] and not named & theirs.keys():
            yield f"{name}: its comment doesn't name its codes"


def limits(page, header):
    files = ["crates/heap_geometry/src/limits.rt", f"{page.crate}/src/opening.rt", "crates/balloc_malloc/src/bundle.rt"]
    there = constants("".join(map(text_of, files)))
    ours = {page.prefix + name: value_of(limit, there) for name, limit in page.limits.items()}
    theirs = {name: number for name, number in defined(header).items() if name not in VERSION}
    yield from differences(ours, theirs)


def layouts(header):
    handle = re.search(r"pub struct PassHandle \{(.*?)\n\}", text_of(f"{CRATE}/src/handle.rt"), flags=re.S).group(1)
    fields = re.findall(r"^    (?:pub )?(\w+): ([^{}\n]+),$", handle, flags=re.M)
    if fields != [("live", "bool"), ("held", "ErasedBox"), ("rest", "[u64; 6]")]:
        yield f"a pass has other fields than the header's: {fields}"
    for name, wanted in {"balloc_class_count": class_fields(), "balloc_census": census_fields()}.items():
        if struct_fields(header, name) != wanted:
            yield f"{name}: {struct_fields(header, name)} in the header, {wanted} in the crates"


def version(header):
    said = ".".join(str(defined(header).get(name)) for name in VERSION)
    told = re.search(r"^## (\S+)", text_of("CHANGELOG.md"), flags=re.M)
    if told is None or told.group(1).rstrip(",:") != said:
        yield f"the header has version {said}, and CHANGELOG.md begins with {told and told.group(1)}"


def complaints():
    for page in PAGES:
        header = page.text()
        found = [functions(page, header), codes(page, header), limits(page, header)]
        if page.crate == CRATE:
            found += [layouts(header), version(header)]
        for part in found:
            for what in part:
                yield f"{page.name}: {what}"


def summary():
    counts = []
    for page in PAGES:
        header = page.text()
        calls, numbers = len(declared(header)), len(re.findall(r"BALLOC_\w+ = -?\d", header))
        counts.append(f"{calls} functions, {numbers} codes and {len(page.limits)} limits of {page.name}")
    return "; ".join(counts)
