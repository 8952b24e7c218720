"""Runs each trace of traces/ by `schedule` of a built program, and compares with the report beside it."""

import subprocess

from checks import ROOT

TRACES = sorted((ROOT / "traces").glob("*.trace"))


def complaints(program):
    for trace in TRACES:
        with trace.open("rb") as text:
            ran = subprocess.run([program, "schedule"], stdin=text, stdout=subprocess.PIPE)
        if ran.returncode != 0:
            yield f"traces/{trace.name}: status {ran.returncode}"
        elif ran.stdout != trace.with_suffix(".report").read_bytes():
            yield f"traces/{trace.name}: another report"


def summary():
    return f"{len(TRACES)} traces and their reports"
