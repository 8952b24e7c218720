"""The tables of docs/STEPS.md that tools/step_tables.py writes, beside those that it would write now."""

import subprocess
import sys

from checks import ROOT

TOOL = ROOT / "tools" / "step_tables.py"


def complaints():
    if not TOOL.is_file():
        return
    ran = subprocess.run([sys.executable, TOOL, "--check"], cwd=ROOT, capture_output=True, text=True)
    if ran.returncode != 0:
        yield from (ran.stdout + ran.stderr).strip().splitlines() or [f"{TOOL.name} --check ends with {ran.returncode}"]


def summary():
    return "the tables of docs/STEPS.md" if TOOL.is_file() else "no tool writes tables of docs/STEPS.md"
