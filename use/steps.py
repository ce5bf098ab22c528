"""The steps of the gate and of use/test, which use/steps.txt lists, and what is counted of each."""

import re
from pathlib import Path

ROOT = Path(__file__).resolve().parent.parent
PASSED = re.compile(r"(?:^|[ :])([\d,]+) passed\b")
NOT_RUN = "not run: "


def steps(who):
    """The commands that the gate or use/test runs, each as its words."""
    found = []
    for line in (ROOT / "use/steps.txt").read_text(encoding="utf-8").splitlines():
        only, bar, command = line.rpartition("|")
        if line.strip() and not line.startswith("#") and (not bar or only.strip() == who):
            found.append(command.split())
    return found


def count_of(said):
    """How many a step says in its last line that passed, and 1 where it says nothing of that."""
    lines = [line for line in said.splitlines() if line.strip()]
    told = PASSED.search(lines[-1]) if lines else None
    return int(told[1].replace(",", "")) if told else 1


def left_out(said):
    """The lines in which a step says what it didn't run."""
    return [line for line in said.splitlines() if line.startswith(NOT_RUN)]
