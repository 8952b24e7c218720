#!/usr/bin/env python3
"""Makes random scripts of calls on heaps of all sorts: whole calls on one heap, steps on another beside it.

    tools/try_calls.py PROGRAM MODEL SEED SCRIPTS CALLS

Run it when a call of the heap has changed, above all where it makes its steps in a row. PROGRAM is the built one, as
crates/benches/out/benches. It draws each script from its number, and counts the answers, places and counts of callers that
differ behind a call, and the words that differ at the end. MODEL is the folder of the independent program of the same
specification, or `-`. It makes the same script by itself, step by step, and has to come to the same sums: calls and their
answers, steps, exchanges, cleared superblocks, and all words. The last line sums up; ends with 1 where anything differs,
and says where.
"""

import random
import sys
from collections import Counter

from random_runs import CALL_STEPS, CLASSES, LARGE_MOST, MAX_TURNS, SMALL_MOST, of_model, scripts

WORD = 1 << 64
LEAST_WIDE = 300
ENOUGH = 1 << 32


class Random:
    """The generator of the program."""

    def __init__(self, seed):
        self.state = seed % WORD

    def below(self, most):
        self.state = (self.state * 6_364_136_223_846_793_005 + 1_442_695_040_888_963_407) % WORD
        return (self.state >> 33) % most


class Script:
    """The calls that the program draws from a number, in the same order."""

    def __init__(self, seed):
        self.random = Random(seed)
        self.needs = ["wide", "wide", "one", "mixed", "mixed", "units"][self.random.below(6)]
        self.tries = [1, 1, 2, 64][self.random.below(4)]
        self.frees = 1
        self.asked = 0

    def request(self, idle, held, usable):
        """What is asked next of a caller with these blocks."""
        below = self.random.below
        if self.asked % 60 == 0:
            self.frees = 1 + 2 * below(5)
        self.asked += 1
        if not idle:
            return ("resume",)
        kind = below(12)
        if kind == 3:
            return ("take", below(4))
        if not held:
            return ("alloc", self.need())
        number = below(min(len(held), 1 << 20))
        if kind < 2:
            word = below(max(usable(held[number]), 1))
            return ("write", number, word, self.asked) if kind == 0 else ("read", number, word)
        if kind == 2:
            return ("put", number, below(4))
        if below(10) < self.frees:
            return ("free", number)
        return ("alloc", self.need())

    def stop(self, request):
        """After how many steps the call is stopped, if it is one that can be."""
        below = self.random.below
        if request[0] not in ("alloc", "free", "resume") or below(4) != 0:
            return None
        return 1 + below([4, 12, 40, CALL_STEPS][below(4)])

    def need(self):
        below = self.random.below
        if self.needs == "wide":
            return LEAST_WIDE + below(SMALL_MOST + 1 - LEAST_WIDE)
        if self.needs == "one":
            return 1
        if self.needs == "mixed":
            return below(2 << below(CLASSES))
        if below(4) == 0:
            return below(SMALL_MOST + 1)
        if below(2) == 0:
            return below(LARGE_MOST + 129)
        return SMALL_MOST + 1 + below(8000)


class Caller:
    """A caller of the model, with the blocks in its hand."""

    def __init__(self, machine, number, sums):
        self.machine, self.number, self.sums = machine, number, sums
        self.held = []

    def go_on(self, tries, steps):
        """Steps of the call that is under way, until they are used up or that ends; then how."""
        for _ in range(steps):
            if tries == 0:
                return None
            told, reply = self.machine.advance(self.number)
            self.sums["steps"] += 1
            if told == "Done":
                return reply
            tries -= told != "More"
        return None

    def call(self, request, tries, steps):
        """The call that is asked for; nothing where a call that isn't under way is to be resumed."""
        machine, number, held = self.machine, self.number, self.held
        kind, *rest = request
        if kind == "resume":
            if machine.idle(number):
                return
        elif kind == "alloc":
            begun = machine.begin_alloc(number, *rest)
            if begun != "Started":
                return self.count((begun,))
        elif kind == "take":
            machine.begin_take(number, *rest)
        else:
            at = rest[0]
            block = held.pop(at) if kind in ("free", "put") else held[at]
            getattr(machine, "begin_" + kind)(number, *block, *rest[1:])
        brought = block if kind == "put" else None
        if kind in ("write", "read", "put", "take"):
            tries = steps = ENOUGH
        self.count(self.go_on(tries, steps), brought)

    def count(self, reply, brought=None):
        """Counts the answer, and takes the block that it brings."""
        answer = reply[0] if reply is not None else "Busy"
        if answer in ("Given", "Got"):
            self.held.append(reply[1:])
        elif answer == "Full":
            self.held.append(brought)
        self.sums["calls"] += 1
        if answer.lower() in self.sums:
            self.sums[answer.lower()] += 1


def by_model(core, seed, calls, heap):
    """What the script of this number comes to in the model."""
    callers, frames, heaps, units, turns = heap
    machine = core.Core(core.WIDE, core.Geometry(frames, heaps, units, callers, turns))
    sums = dict.fromkeys(("calls", "given", "refused", "spent", "freed", "busy", "steps"), 0)
    all_callers = [Caller(machine, number, sums) for number in range(callers)]
    script = Script(seed)
    for _ in range(calls):
        caller = all_callers[script.random.below(callers)]
        request = script.request(machine.idle(caller.number), caller.held, lambda block: core.WIDE.usable(block[1]))
        steps = script.stop(request)
        caller.call(request, script.tries, ENOUGH if steps is None else steps)
    for caller in all_callers:
        caller.call(("resume",), ENOUGH, ENOUGH)
    for count in ("won", "lost", "cleared"):
        sums[count] = sum(getattr(machine, count)(number) for number in range(callers))
    sums["words"] = 0
    for word in machine.words:
        sums["words"] = (sums["words"] * 1_000_003 + word) % WORD
    return sums


def heap_of(rng):
    """The numbers of a small heap: callers, frames, processor heaps and units."""
    return [rng.randrange(1, 6), rng.randrange(1, 7), rng.randrange(1, 4), rng.choice([0, 2, 8, 64])]


def turns_of(seed):
    """The turn limit in the script of this number."""
    return 40 if seed % 5 == 0 else MAX_TURNS


def main():
    program, model, seed, count, calls = sys.argv[1:]
    rng = random.Random(int(seed))
    plans = [("heap", "script", int(seed) + number, int(calls), *heap_of(rng)) for number in range(int(count))]
    core = None if model == "-" else of_model(model, "core")
    sums, wrong = Counter(), 0
    for (_, _, number, made, *heap), told in scripts(program, plans):
        if told is None:
            wrong += 1
            continue
        differed = told.pop("differed")
        expected = told if core is None else by_model(core, number, made, (*heap, turns_of(number)))
        if differed or told != expected:
            wrong += 1
            print("script", number, "calls", made, "heap", *heap, "differed", differed, told, "and not", expected)
        sums.update(told)
    sums.pop("words", None)
    print("scripts", count, *(f"{name} {amount}" for name, amount in sums.items()), "wrong", wrong)
    return 1 if wrong else 0


if __name__ == "__main__":
    sys.exit(main())
