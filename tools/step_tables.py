#!/usr/bin/env python3
"""Writes the tables of docs/STEPS.md from the definitions of the steps.

usage: python3 tools/step_tables.py [--check]

Run it behind a change of a point, an exit, a continuation or an event. Between two marks stand, of each point, its action
(`plan_block_of`) and where it leads (`settle_block_of`), of each exit what follows (`leave_block`), and the events
(`block_event`), by these definitions and their likes in crates/step_parts/specs and crates/errand_steps/specs. With --check
it writes nothing, and ends with 1 where the document differs. It reads lines, and proves nothing.
"""

import re
import sys
from pathlib import Path

ROOT = Path(__file__).resolve().parent.parent
STEPS = ROOT / "docs" / "STEPS.md"
MARKS = ("<!-- tools/step_tables.py writes from here -->", "<!-- to here -->")
PARTS = {"superblock": "Block", "stack": "Stack", "hazard": "Desc", "partial": "Partial", "large": "Large"}


def equations(*paths):
    """The lines `name patterns = right side` of specs, which may go on below: each name's left and right sides."""
    text = "\n".join((ROOT / "crates" / path).read_text() for path in paths)
    found = {}
    for name, left, right in re.findall(r"^([a-z]\w*) (.*?) = (.*)$", re.sub(r"\n {4,}", " ", text), re.M):
        found.setdefault(name, []).append((left, right))
    return found


def branches(text):
    """The two sides of a right side that asks whether its action was won, or the one side."""
    asked = re.match(r"(?:Stays |Leaves )?\(?if x\.won then (.*)", text)
    depth = 0
    for word in re.finditer(r"\b(if|else)\b", asked.group(1) if asked else ""):
        if word.group() == "else" and depth == 0:
            return {"won: ": asked.group(1)[:word.start()], "lost: ": asked.group(1)[word.end():]}
        depth += 1 if word.group() == "if" else -1
    return {"": text}


def leads(text, point, known, defined):
    """The points and exits of a right side, helpers followed, but the very point that the step was made at."""
    found = []
    for word in re.finditer(r"(?<![\w.])[A-Za-z]\w*", text):
        if word.group() in known and not text[word.start():].startswith(point):
            found.append(f"`{word.group()}`")
        elif word.group().startswith("after_"):
            found += [name for _, right in defined[word.group()] for name in leads(right, point, known, defined)]
    return list(dict.fromkeys(found))


def points(part, kind):
    """The rows of a part: each point, its action, and where it leads."""
    path = f"step_parts/specs/{part}/Points.antt"
    defined = equations(path)
    words = equations(path, "step_parts/specs/stack/Piles.antt", "word_table/specs/Sites.antt")
    imports = re.findall(rf"\.{kind}(?:Point|Exit)\.TheVariants\.\{{(.*)\}}", (ROOT / "crates" / path).read_text())
    known = ", ".join(imports).split(", ")
    settled = {left.split(")")[0].strip("("): right for left, right in defined[f"settle_{kind.lower()}_of"]}
    for left, right in defined[f"plan_{kind.lower()}_of"]:
        point = left.strip("()")
        action, word = re.match(r"(\w+) \(?([\w.]+)", right).groups()
        named = dict.fromkeys(re.match(r"(?:name\.)?(\w+)", name).group(1) for _, name in words.get(word, [("", word)]))
        told = [won + ", ".join(leads(side, point, known, defined)) for won, side in branches(settled[point]).items()]
        yield f"| `{point.split()[0]}` | `{action} {'` or `'.join(named)}` | {'; '.join(told)} |"


def follows(text, defined):
    """What a right side of Nexts says; what it calls there is followed, but for two that stand in rows of their own."""
    word, text = text.split()[0], text.replace("(", "").replace(")", "")
    behind = "".join(f" with `{name}`" for name in re.findall(r"continuation\.(\w+)", text))
    if word == "if":
        asked, then, other = re.match(r"if (\w+) then (.*) else (.*)", text).groups()
        return f"`{asked}`: {follows(then, defined)}; else {follows(other, defined)}"
    if word == "At":
        point = re.findall(r" ((?:block|stack|desc|partial|large)\.\w+|Frames|Partials)", text)
        return f"`{' '.join(point)}`{behind}"
    if word == "End":
        return f"`End {re.findall('reply.([A-Z]+[a-z]*)', text)[0]}`"
    return cases(defined[word], defined) if word in set(defined) - {"finish", "put_away"} else f"`{word}`{behind}"


def cases(lines, defined):
    """A definition over continuations, a case each."""
    told = [(re.findall(r"continuation\.(\w+)", left), follows(right, defined)) for left, right in lines]
    return "; ".join((f"`{case[0]}`: " if case else "else " if told[1:] else "") + text for case, text in told)


def events():
    """The rows of events: each with the points whose step makes it."""
    specs = equations(*(f"errand_steps/specs/tables/{name}.antt" for name in ("Blocks", "Stacks", "LargeBlocks")))
    made = {}
    for left, right in specs["block_event"] + specs["stack_event"] + specs["large_event"]:
        for asked, text in [row for name in specs if f"({name} " in right for row in specs[name]] or [("", right)]:
            for event in re.findall(r"event\.(\w+)", text):
                point = re.findall(r"\.(\w+)", left)[:1] + re.findall("Frames|Partials", asked)
                made.setdefault(event, []).append(f"`{' '.join(point)}`")
    return [f"| `{event}` | {', '.join(names)} |" for event, names in made.items()]


def tables():
    """The lines of all tables."""
    for part, kind in PARTS.items():
        yield from [f"**`{kind}Point`**", "", "| point | action | leads to |", "|---|---|---|", *points(part, kind), ""]
    yield from ["**What follows an exit**", "", "| exit | next, by the continuation |", "|---|---|"]
    nexts = equations("errand_steps/specs/Nexts.antt")
    for left, right in (row for kind in PARTS.values() for row in nexts[f"leave_{kind.lower()}"]):
        yield f"| `{left.strip('(').split()[0]}` | {follows(right, nexts)} |"
    yield from [f"| `{name}` | {cases(nexts[name], nexts)} |" for name in ("finish", "put_away")]
    yield from ["", "**Events of steps that are won**", "", "| event | made at |", "|---|---|", *events()]


if __name__ == "__main__":
    before, rest = STEPS.read_text().split(MARKS[0])
    text = "\n".join([before + MARKS[0], "", *tables(), "", MARKS[1]]) + rest.split(MARKS[1])[1]
    if "--check" not in sys.argv:
        STEPS.write_text(text)
    elif text != STEPS.read_text():
        sys.exit("docs/STEPS.md differs from the definitions: run tools/step_tables.py")
