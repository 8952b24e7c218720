#!/usr/bin/env python3
"""Runs the gate and tells where its time goes, crate by crate.

    tools/gate_times.py [--apart] [--keep FOLDER] [--on N] [--behind CRATE] [--picture] [WORD..]   runs `rt ci WORD..` at the top of the tree
    tools/gate_times.py --read LOG SAMPLES [--of PROCESS] [--on N] [--behind CRATE] [--picture]   tells it of a run that has ended

Run it once at the end of a batch, for the table and the picture of docs/TESTING.md, on a machine that does nothing else.
While the gate runs, its checks are looked at twice a second: what each proves and the processor time it has taken. Each
line of the gate is printed with the clock and the seconds since the start. At the end stands a table in Markdown, in the
order of crates.txt: of each crate the seconds of processor time of its proof, of its tests' proof, of the proofs that its
edits begin and end with, and of its edits; when by the clock the first two began and ended; and for which crate it waited,
the one below it that was proved last. Then come the longest chain of proofs by processor time, each of a crate that stands
on the one before, and what ran last. A check that ends within half a second is not seen.

`--apart` keeps rt's own threads on one processor and its checks on all, until each crate's proof is told: the threads read
texts by turns, and on several processors each turn waits for the one before.
`--keep` writes what was read, the lines as `log` and a line of JSON for each check as `samples`. `--picture` draws
docs/pictures/gate.svg. Of several runs in a file of samples, `--read` takes the one with most checks, or that of PROCESS.
`--on` tells too how long the same checks would take on N processors, each one in as many seconds as it took of a processor
in the run, in the order in which `rt ci` takes them; what comes before the first check and behind the last is as in the run.
`--behind` tells it too of the checks of a crate and of all crates that stand on it, alone: what is left of the gate behind a
change in that crate, where the kit keeps the others.
"""
import argparse
import datetime
import json
import os
import re
import subprocess
import sys
import threading
import time

from pictures import FAINT, FREE, HELD, INK, LIVE, STRONG, TOP, Picture, below, read_crates
from timed import row, table_head

PROOF, TESTS, BASE, EDITS = "proof", "tests", "edits' base", "edits"
GRID = "#dfe3e8"
FILLS = {PROOF: STRONG, TESTS: FREE, BASE: HELD, EDITS: LIVE}
TICKS = os.sysconf("SC_CLK_TCK")
EVERY = 0.5
REPORTED = re.compile(r"rt: (\w+) (?:proved|NOT PROVED|is kept)")


class Watch(threading.Thread):
    """Looks at the checks of the gate while it runs, and writes what each took once it has ended."""

    def __init__(self, write, apart=None):
        super().__init__(daemon=True)
        self.write, self.apart, self.seen, self.done = write, apart, {}, threading.Event()

    def run(self):
        while not self.done.wait(EVERY):
            self.look()
            if self.apart and any(check["ppid"] == self.apart and kind_of(check) for check in self.seen.values()):
                keep_apart(self.apart)
        for check in self.seen.values():
            self.write(check)

    def let_go(self):
        """Leaves all processors to rt again, and so to the tests and programs that it starts."""
        gate, self.apart = self.apart, None
        if gate:
            spread(gate)

    def look(self):
        """Takes note of each check that runs now, and writes those that have ended."""
        now, live = time.time(), set()
        for process in filter(str.isdigit, os.listdir("/proc")):
            try:
                found = check_of(process)
            except (OSError, IndexError, ValueError):
                continue
            if found:
                key, taken, first = found
                live.add(key)
                self.seen.setdefault(key, {**first, "start": now}).update(cpu=taken, last=now)
        for key in [key for key in self.seen if key not in live]:
            self.write(self.seen.pop(key))


def check_of(process):
    """What tells a check from others, the seconds it has taken with the copies of it that have ended, and what it is."""
    with open(f"/proc/{process}/cmdline", "rb") as file:
        words = file.read().decode(errors="replace").split("\0")[:-1]
    if not words or os.path.basename(words[0]) != "rattle":
        return None
    with open(f"/proc/{process}/stat") as file:
        fields = file.read().rsplit(")", 1)[1].split()
    first = {"pid": process, "ppid": int(fields[1]), "cwd": os.readlink(f"/proc/{process}/cwd"), "cmd": words}
    return (process, fields[19]), sum(map(int, fields[11:15])) / TICKS, first


def keep_apart(gate):
    """Keeps the threads of this process on one processor, and those of all that it has started on all. It has begun its
    first check: how many at a time it has chosen before, by the processors that it might use then."""
    everywhere = os.sched_getaffinity(0)
    parents = {}
    for process in filter(str.isdigit, os.listdir("/proc")):
        try:
            with open(f"/proc/{process}/stat") as file:
                parents[int(process)] = int(file.read().rsplit(")", 1)[1].split()[1])
        except (OSError, IndexError, ValueError):
            continue
    started = {gate}
    while more := {it for it, parent in parents.items() if parent in started} - started:
        started |= more
    for process in started:
        try:
            for thread in os.listdir(f"/proc/{process}/task"):
                os.sched_setaffinity(int(thread), {max(everywhere)} if process == gate else everywhere)
        except OSError:
            continue


def spread(process):
    """Lets the threads of this process use all processors."""
    try:
        for thread in os.listdir(f"/proc/{process}/task"):
            os.sched_setaffinity(int(thread), os.sched_getaffinity(0))
    except OSError:
        pass


def busy_seconds():
    """The seconds that all processors of the machine have worked since it started, but what a host took."""
    with open("/proc/stat") as file:
        counts = list(map(int, file.readline().split()[1:8]))
    return (sum(counts) - counts[3] - counts[4]) / TICKS


def watched(words, keep, apart):
    """Runs the gate; its status, its lines with their seconds, its checks, and the seconds that others worked meanwhile."""
    checks, lines, start, busy = [], [], time.time(), busy_seconds()
    gate = subprocess.Popen(["rt", "ci", *words], cwd=TOP, stdout=subprocess.PIPE, stderr=subprocess.STDOUT, text=True)
    watch = Watch(checks.append, gate.pid if apart else None)
    watch.start()
    left = set(read_crates())
    for line in gate.stdout:
        lines.append((time.time() - start, line.rstrip("\n")))
        print(stamped(start, *lines[-1]), flush=True)
        left -= set(REPORTED.findall(line))
        if not left:
            watch.let_go()
    status = gate.wait()
    watch.done.set()
    watch.join()
    others = busy_seconds() - busy
    if keep:
        os.makedirs(keep, exist_ok=True)
        with open(os.path.join(keep, "log"), "w") as file:
            file.writelines(stamped(start, *line) + "\n" for line in lines)
        with open(os.path.join(keep, "samples"), "w") as file:
            file.writelines(json.dumps(check) + "\n" for check in checks)
    return status, Run(start, lines, checks, gate.pid, others)


def stamped(start, seconds, line):
    """A line of the gate behind the clock and the seconds since the start."""
    return f"{time.strftime('%H:%M:%S', time.localtime(start + seconds))} {seconds:7.0f} {line}"


def read(log, samples, process):
    """A run that has ended, from its lines and its checks."""
    with open(samples) as file:
        checks = [json.loads(line) for line in file]
    lines, start = [], None
    with open(log, errors="replace") as file:
        for clock, seconds, text in re.findall(r"^(\d\d:\d\d:\d\d) +(\d+) ?(.*)$", file.read(), re.M):
            lines.append((int(seconds), text))
            start = start or start_of(clock, int(seconds), checks)
    gates = [check["ppid"] for check in checks if "--statements" in check["cmd"]]
    return Run(start, lines, checks, process or max(gates, key=gates.count), None)


def start_of(clock, seconds, checks):
    """The time at which a run began, one of whose lines has this clock and these seconds."""
    first = datetime.datetime.fromtimestamp(min(check["start"] for check in checks))
    hour, minute, second = map(int, clock.split(":"))
    line = first.replace(hour=hour, minute=minute, second=second, microsecond=0).timestamp()
    return min((line + day * 86400 for day in (-1, 0, 1)), key=lambda at: abs(at - first.timestamp())) - seconds


class Work:
    """What the gate did of one kind for one crate: how many checks, their seconds, and when the first began and the last ended."""

    def __init__(self):
        self.many, self.taken, self.begin, self.end = 0, 0.0, None, None

    def add(self, begin, end, taken):
        self.many, self.taken = self.many + 1, self.taken + taken
        self.begin = begin if self.begin is None else min(self.begin, begin)
        self.end = end if self.end is None else max(self.end, end)


class Run:
    """A run of the gate: when it began, how long it took, and what it did for each crate."""

    def __init__(self, start, lines, checks, gate, busy):
        self.start, self.lines, self.seconds = start, lines, lines[-1][0] if lines else 0
        self.work, self.last = {}, None
        for check in checks:
            kind = kind_of(check) if check["ppid"] == gate else None
            if kind:
                begin, end = check["start"] - start, check["last"] - start
                self.work.setdefault(kind, Work()).add(begin, end, check["cpu"])
                if self.last is None or end > self.last[1]:
                    self.last = kind, end
        taken = sum(work.taken for work in self.work.values())
        self.taken, self.others = taken, None if busy is None else max(busy - taken, 0)

    def of(self, crate, kind):
        return self.work.get((crate, kind))

    def kept(self):
        """The crates whose proof an earlier run on this machine had made."""
        return {found[1] for _, line in self.lines for found in [re.match(r"rt: (\w+) is kept", line)] if found}

    def waited_for(self, crate, lows):
        """The crate below this one whose proof ended last."""
        ends = {low: self.of(low, PROOF).end for low in lows if self.of(low, PROOF)}
        return max(ends, key=ends.get, default="")


def kind_of(check):
    """The crate that a check is of, and what the gate makes it for; nothing where it only looks at the layout."""
    words = check["cmd"]
    if "--crate-name" not in words:
        return None
    crate = words[words.index("--crate-name") + 1]
    if os.path.basename(check["cwd"]).startswith("rt-edit-"):
        over = words[words.index("--incremental") + 1] if "--incremental" in words else ""
        return crate, BASE if os.path.basename(over) == "seed" else EDITS
    return crate, TESTS if "--test" in words else PROOF


def longest_chain(run, stands_on):
    """The chain of proofs that take most processor time, each of a crate on the one before; the last may be of tests,
    which wait for what is below their crate, and not for the crate."""
    best = {}

    def seconds(crate, kind):
        own = run.of(crate, kind)
        return own.taken if own else 0

    def lower(crate):
        return max(map(best_of, stands_on[crate]), default=(0, []))

    def best_of(crate):
        if crate not in best:
            taken, chain = lower(crate)
            best[crate] = taken + seconds(crate, PROOF), [*chain, (crate, PROOF)]
        return best[crate]

    tests = [(lower(crate)[0] + seconds(crate, TESTS), [*lower(crate)[1], (crate, TESTS)]) for crate in stands_on]
    return max([*map(best_of, stands_on), *tests])


def chain_behind(run, stands_on):
    """Of each proof how many seconds of proofs and tests stand behind it, itself among them: the longest chain of them."""
    behind = {}
    for crate in reversed(list(stands_on)):
        above = [other for other in stands_on if crate in stands_on[other]]
        tests = [run.of(other, TESTS).taken for other in above if run.of(other, TESTS)]
        own = run.of(crate, PROOF)
        behind[crate] = (own.taken if own else 0) + max([*(behind[other] for other in above), *tests], default=0)
    return behind


def seconds_on(run, stands_on, processors, crates):
    """The seconds that the run's checks of these crates would take on so many processors: those with the longest chain
    behind them first, edits and the proofs before them where no other check is ready."""
    behind, kinds = chain_behind(run, stands_on), {}
    for (crate, kind), work in run.work.items():
        if crate not in crates:
            continue
        kinds.setdefault(crate, {})[kind] = work.taken / (work.many if kind == EDITS else 1), work.many if kind == EDITS else 1
    tasks = []
    for crate, found in kinds.items():
        lows = {(low, PROOF, 0) for low in below(stands_on, crate) if PROOF in kinds.get(low, {})}
        proofs = {(crate, kind, 0) for kind in (PROOF, TESTS) if kind in found}
        for kind, (seconds, many) in found.items():
            before = proofs | {(crate, BASE, 0) for it in found if it == BASE} if kind == EDITS else set()
            rank = (kind in (BASE, EDITS), -(behind[crate] if kind == PROOF else seconds))
            tasks += [(rank, (crate, kind, number), lows | before, seconds) for number in range(many)]
    tasks.sort(key=lambda task: task[0])
    now, running, ended = 0.0, [], set()
    while tasks or running:
        for task in [task for task in tasks if task[2] <= ended][:processors - len(running)]:
            tasks.remove(task)
            running.append((now + task[3], task[1]))
        now, done = min(running)
        running.remove((now, done))
        ended.add(done)
    first = min(work.begin for work in run.work.values())
    return first + now + max(run.seconds - run.last[1], 0)


def standing_on(stands_on, crate):
    """The crate and all that stand on it."""
    return {other for other in stands_on if other == crate or crate in below(stands_on, other)}


def clock(seconds):
    """Minutes and seconds since the start of the run."""
    return f"{int(seconds) // 60}:{int(seconds) % 60:02}"


def cells_of(work):
    return [f"{work.taken:.0f}", f"{clock(work.begin)}–{clock(work.end)}"] if work else ["", ""]


def table(run, stands_on):
    """The lines of the table."""
    yield table_head(["crate", "proof, s", "by the clock", "tests, s", "by the clock", "edits' base, s", "edits", "edits, s", "waited for"])
    kept = run.kept()
    for crate in stands_on:
        base, edits = run.of(crate, BASE), run.of(crate, EDITS)
        proof = ["kept", ""] if crate in kept else cells_of(run.of(crate, PROOF))
        yield row([f"`{crate}`", *proof, *cells_of(run.of(crate, TESTS)), f"{base.taken:.0f}" if base else "",
                   edits.many if edits else "", f"{edits.taken:.0f}" if edits else "",
                   run.waited_for(crate, below(stands_on, crate)) if run.of(crate, PROOF) else ""])
    of_kind = {kind: [work for (_, it), work in run.work.items() if it == kind] for kind in FILLS}
    sums = {kind: f"{sum(work.taken for work in works):.0f}" for kind, works in of_kind.items()}
    yield row(["all", sums[PROOF], "", sums[TESTS], "", sums[BASE], sum(work.many for work in of_kind[EDITS]), sums[EDITS], ""])


def told(run, stands_on):
    """What is said of a run: its length, its table, its chain and its end."""
    date = time.strftime("%Y-%m-%d %H:%M", time.localtime(run.start))
    beside = "what ran beside it is not known" if run.others is None else f"{run.others:.0f} s of processor time were not its checks'"
    yield (f"{date}, {os.cpu_count()} processors: {clock(run.seconds)} from the start to the last line, {run.taken:.0f} s of "
           f"processor time in checks; {beside}.\n")
    yield from table(run, stands_on)
    taken, chain = longest_chain(run, stands_on)
    words = [f"{crate}{' (tests)' * (kind == TESTS)} {run.of(crate, kind).taken:.0f}" for crate, kind in chain if run.of(crate, kind)]
    yield f"\nThe longest chain of proofs, {taken:.0f} s of processor time: {', '.join(words)}."
    ends = {kind: max(((work.end, crate) for (crate, it), work in run.work.items() if it == kind), default=None) for kind in FILLS}
    yield "Last ended " + ", ".join(f"of {kind} {end[1]} at {clock(end[0])}" for kind, end in ends.items() if end) + "."
    yield f"Before the first check: {clock(min((work.begin for work in run.work.values()), default=0))}; " \
          f"behind the last: {clock(run.seconds - run.last[1]) if run.last else '0:00'}."


def draw(run, stands_on):
    """A bar for each crate and kind of work, from its first check to the end of its last one; the chain's names are bold."""
    left, wide, high, chain = 190, 900, 15, dict(longest_chain(run, stands_on)[1])
    picture = Picture(left + wide + 40, 70 + high * len(stands_on), "The gate: when each crate was proved")
    scale = wide / max(run.seconds, 1)
    for number, kind in enumerate(FILLS):
        picture.box(left + 150 * number, 12, 18, 14, FILLS[kind])
        picture.text(left + 150 * number + 26, 24, kind, 12, "start")
    step = next(minutes for minutes in (1, 2, 5, 10, 20, 60) if run.seconds / 60 / minutes <= 16 or minutes == 60)
    for minute in range(0, int(run.seconds / 60) + 1, step):
        x = left + minute * 60 * scale
        picture.path(f"M{x:.0f} 50 L{x:.0f} {56 + high * len(stands_on)}", arrow=False, colour=GRID)
        picture.text(x, 44, f"{minute} min", 11, colour=FAINT)
    for number, crate in enumerate(stands_on):
        y = 54 + number * high
        picture.text(left - 10, y + 11, crate, 11, "end", INK, mono=True, bold=crate in chain)
        for kind, fill in reversed(FILLS.items()):
            work = run.of(crate, kind)
            if work:
                inset = 0 if kind == PROOF else 2
                picture.box(round(left + work.begin * scale, 1), y + 1 + inset, round(max((work.end - work.begin) * scale, 1), 1),
                            high - 3 - 2 * inset, fill)
    picture.save("gate.svg")


def main():
    parser = argparse.ArgumentParser(usage=__doc__)
    parser.add_argument("--apart", action="store_true")
    parser.add_argument("--keep")
    parser.add_argument("--read", nargs=2)
    parser.add_argument("--of", type=int)
    parser.add_argument("--on", type=int, action="append", default=[])
    parser.add_argument("--behind", action="append", default=[])
    parser.add_argument("--picture", action="store_true")
    words, rest = parser.parse_known_args()
    status, run = (0, read(*words.read, words.of)) if words.read else watched(rest, words.keep, words.apart)
    stands_on = read_crates()
    print(*told(run, stands_on), sep="\n")
    for many in words.on:
        print(f"The same checks on {many} processors: {clock(seconds_on(run, stands_on, many, set(stands_on)))}.")
        for crate in words.behind:
            crates = standing_on(stands_on, crate)
            print(f"Those of {crate} and of what stands on it, on {many}: {clock(seconds_on(run, stands_on, many, crates))}.")
    if words.picture:
        draw(run, stands_on)
    return status


if __name__ == "__main__":
    sys.exit(main())
