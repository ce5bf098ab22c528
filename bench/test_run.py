#!/usr/bin/env python3
"""Runs bench/run over checkouts of its own, whose programs are scripts, with workloads of its own."""

import shutil
import subprocess
import sys
import tempfile
from pathlib import Path

HERE = Path(__file__).resolve().parent
WORKLOADS = "both one 10 SEED\nalone two 10\nold_alone three 10\nneither four 10\nnew_job five job 10\n"


def checkout(folder, **programs):
    """A checkout in which these crates are built, each a script of this text; a crate whose text is None isn't built."""
    (folder / "bench").mkdir(parents=True)
    for crate, text in programs.items():
        program = folder / "crates" / crate / "out" / crate
        program.parent.mkdir(parents=True)
        if text is not None:
            program.write_text(f"#!/bin/sh\n{text}\n", encoding="utf-8")
            program.chmod(0o755)
    return folder


class Tests:
    def __init__(self, room):
        self.room, self.passed, self.failed = room, 0, 0
        (room / "bench").mkdir()
        shutil.copyfile(HERE / "run", room / "bench/run")
        (room / "bench/workloads.txt").write_text(WORKLOADS, encoding="utf-8")

    def run(self, *words):
        done = subprocess.run([sys.executable, "-B", self.room / "bench/run", *words], capture_output=True, text=True, check=False)
        return done.returncode, done.stdout, done.stderr

    def holds(self, what, does, shown):
        self.passed += bool(does)
        self.failed += not does
        if not does:
            print(f"test_run: not so: {what}\n{shown}")


def main():
    with tempfile.TemporaryDirectory(prefix="bench-") as name:
        room = Path(name)
        tests = Tests(room)
        old = checkout(room / "old", one='echo "$1 $2"', three="echo", five="exit 2")
        new = checkout(room / "new", one='echo "$1 $2"', two="echo", five="echo")
        done = tests.run(old, new, "7")
        lines = {line.split()[0]: line.split()[1:] for line in done[1].splitlines() if not line.startswith("    ")}
        tests.holds("each workload has a line, and no traceback", done[0] == 0 and not done[2] and len(lines) == 6, done)
        tests.holds("both are timed", len(lines.get("both", ())) == 7 and "-" not in lines["both"], done)
        tests.holds("NEW alone", lines.get("alone", ())[:3] == ["-", "-", "-"], done)
        tests.holds("OLD alone isn't timed", lines.get("old_alone") == "NEW has no crates/three".split(), done)
        tests.holds("a job that OLD hasn't", lines.get("new_job", ())[:3] == ["-", "-", "-"], done)
        tests.holds("a crate that neither has", lines.get("neither") == "neither checkout has crates/four".split(), done)
        empty = checkout(room / "empty"), checkout(room / "empty_too")
        done = tests.run(*empty)
        tests.holds("nothing to time", done[0] == 1 and "has the crate of a workload" in done[2], done)
        done = tests.run(old, checkout(room / "unbuilt", one=None))
        tests.holds("a program that isn't built", done[0] == 1 and "one is not built" in done[2] and "Traceback" not in done[2], done)
        done = tests.run(old, checkout(room / "other", one="echo other"))
        tests.holds("outputs that differ", done[0] == 1 and "the outputs differ" in done[2], done)
        done = tests.run(old, new, "x")
        tests.holds("a seed that is none", done[0] == 1 and "SEED is a number" in done[2], done)
    print(f"test_run: {tests.passed} passed, {tests.failed} failed")
    return 1 if tests.failed else 0


if __name__ == "__main__":
    sys.exit(main())
