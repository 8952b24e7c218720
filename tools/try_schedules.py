#!/usr/bin/env python3
"""Runs random traces in random orders of steps by `schedule`, and compares each text with that of another program.

    tools/try_schedules.py PROGRAM MODEL SEED TRACES [SPOILT]

Run it when a step, the machine or the reader of traces has changed. PROGRAM is the built one, as crates/balloc/out/balloc.
MODEL is the folder of the independent program of the same specification, which makes the same steps by itself. The texts
have to be the same, byte for byte: the report, and how many steps were made, exchanges lost and superblocks cleared; or the
line that refuses the trace. Half of the traces are of version 2. Of SPOILT traces, 0 where it isn't named, one is spoilt: a
byte of it is another one, or a line is gone or comes twice. The last line counts, with the kinds of step that were made;
ends with 1 where a text differs, whose trace is printed before.
"""

import random
import sys

from random_runs import CALL_STEPS, SMALL_MOST, UNIT_WORDS, Expected, Operations, of_model, run, text_of


def random_trace(rng):
    """A trace of lanes that meet often: few frames, blocks of few classes, and orders that cut calls in two."""
    lanes = rng.randint(1, 6)
    turns = f" {rng.randint(1, 12)}" if rng.random() < 0.15 else ""
    version = rng.choice([1, 2])
    heap = f"{rng.randint(1, 8)} {rng.randint(1, 3)} {rng.choice([0, 1, 2, 4])}{turns}"
    small = rng.choice([[1], [1, 3], [3, 100], [1, 15, 255], [600], [600], [1, 600]])
    shelves = rng.random() < 0.5

    def words(rng):
        """One allocation of fifty is large."""
        return rng.choice([SMALL_MOST + 1, UNIT_WORDS]) if rng.random() < 0.02 else rng.choice(small)

    def resized(rng, words):
        """Some resizes are to a word more or less."""
        return max(words + rng.choice([0, 0, 1, -1]), 0)

    often = {"a": 45, "f": 35, "w": 2, "c": 3, "p": 8 if shelves else 0, "t": 7 if shelves else 0, "r": 30 if version == 2 else 0}
    operations = Operations(4, 2, words, resized, often)
    drawn = [operations.lane(rng, 1, 14) for _ in range(lanes)]
    return text_of(version, heap, drawn, [random_order(rng, lanes) for _ in range(rng.randint(0, 120))])


def spoilt(rng, trace):
    """The trace with one thing wrong, or that may be wrong."""
    lines = trace.split(b"\n")
    at = rng.randrange(len(lines))
    kind = rng.randrange(4)
    if kind == 0:
        del lines[at]
    elif kind == 1:
        lines.insert(at, lines[rng.randrange(len(lines))])
    else:
        line = bytearray(lines[at] or b" ")
        line[rng.randrange(len(line))] = rng.choice(b"0129 -rhe#\t\xc3")
        lines[at] = bytes(line)
    return b"\n".join(lines)


def random_order(rng, lanes):
    """A lane and its next steps: a few of them, or some behind the words of a large block that it fills."""
    filled = SMALL_MOST * rng.randint(1, 3) + rng.randint(1, 40)
    steps = rng.choice([rng.randint(1, 4), rng.randint(1, 12), rng.randint(1, 40), rng.randint(1, CALL_STEPS), filled])
    return f"order {rng.randrange(lanes)} {steps}"


def points_of(machine):
    """The kinds of step that callers of the independent program stand before, from now on."""
    kinds, advance = set(), machine.Core.advance

    def counted(core, caller):
        point = core.errands[caller].point
        if point is not None:
            kinds.add(point[0])
        return advance(core, caller)

    machine.Core.advance = counted
    return kinds


def main():
    program, model, seed, traces, *share = sys.argv[1:]
    share = int(share[0]) if share else 0
    expected, kinds = Expected(model, 17), points_of(of_model(model, "core"))
    rng = random.Random(int(seed))
    steps = lost = cleared = refused = wrong = 0
    for count in range(int(traces)):
        trace = random_trace(rng)
        if share > 0 and count % share == 0:
            trace = spoilt(rng, trace)
        ran, wanted = run(program, ["schedule"], trace), expected.run(["schedule"], trace)
        if ran != wanted:
            wrong += 1
            print(trace.decode("latin-1"), "status", *ran, "and not", *wanted, sep="\n")
            continue
        if wanted[0] != 0:
            refused += 1
            continue
        _, made, _, missed, _, taken = wanted[1].splitlines()[-1].split()
        steps, lost, cleared = steps + int(made), lost + int(missed), cleared + int(taken)
    print(f"traces {traces} steps {steps} lost {lost} cleared {cleared} points {len(kinds)} refused {refused} wrong {wrong}")
    return 1 if wrong > 0 else 0


if __name__ == "__main__":
    sys.exit(main())
