#!/usr/bin/env python3
"""Runs run_gate.py, and use/test's reading of steps, in checkouts of their own, whose steps and whose `rt` are scripts."""

import os
import re
import shutil
import subprocess
import sys
import tempfile
from pathlib import Path

HERE = Path(__file__).resolve().parent
sys.path.insert(0, str(HERE))

import steps  # noqa: E402
import watch  # noqa: E402

FIRST = 'print("first: 3 passed")'
SILENT = 'print("silent: 0 differ")\nprint("not run: nasm is missing")\nprint("silent: 0 differ")'
READS = 'import sys\nprint(open(sys.argv[1], encoding="utf-8").read().count("rt: low"), "passed")'
FAILS = 'import sys\nprint("it is wrong")\nsys.exit(1)'
# What stands for `rt ci`: it starts what is called as the prover is, for a crate.
RT = """\
#!/usr/bin/env bash
[ "$1" = version ] && { echo "kit none"; exit 0; }
(exec -a rattle python3 "$(dirname "$0")/rattle" check --crate-name low src/lib.rt)
echo 'rt: low proved'
(exec -a rattle python3 "$(dirname "$0")/rattle" build --crate-name low --test src/lib.rt)
echo 'rt: low: its tests are proved'
echo 'rt: high is kept: an earlier run'
echo '7 passed, 0 failed'
"""
# What is called so takes half a second of the processor, says so, and ends with its input.
RATTLE = "import sys, time\nwhile time.process_time() < 0.5:\n    pass\nprint('ready', flush=True)\nsys.stdin.read()\n"


class Tests:
    def __init__(self, room):
        self.room, self.passed, self.failed, self.number = Path(room), 0, 0, 0

    def holds(self, what, does, shown=""):
        self.passed += bool(does)
        self.failed += not does
        if not does:
            print(f"test_run_gate: not so: {what}\n{shown}")

    def gate(self, text, **scripts):
        """What the gate says of a checkout with these steps."""
        self.number += 1
        folder = self.room / str(self.number)
        (folder / "use").mkdir(parents=True)
        (folder / ".ci").mkdir()
        for name in ("run_gate.py", "steps.py", "watch.py"):
            shutil.copyfile(HERE / name, folder / "use" / name)
        shutil.copy(HERE.parent / ".ci/run", folder / ".ci/run")
        (folder / "use/steps.txt").write_text(text, encoding="utf-8")
        for name, script in scripts.items():
            (folder / f"{name}.py").write_text(script, encoding="utf-8")
        for words in (["init", "-q"], ["add", "-A"], ["-c", "user.name=a", "-c", "user.email=b", "commit", "-q", "-m", "c"]):
            subprocess.run(["git", "-C", folder, *words], check=True)
        bins = self.room / f"bin{self.number}"
        bins.mkdir()
        for name, script in (("rt", scripts.get("rt", RT)), ("rattle", RATTLE)):
            (bins / name).write_text(script, encoding="utf-8")
            (bins / name).chmod(0o755)
        (folder / "rt.py").unlink(missing_ok=True)
        done = subprocess.run(["sh", "-c", f'PATH="{bins}:$PATH" exec .ci/run'], cwd=folder, stdin=subprocess.DEVNULL, capture_output=True, text=True, check=False)
        return done.returncode, done.stdout.splitlines(), done.stderr


def of_passing(tests):
    status, lines, shown = tests.gate("# A comment.\npython3 first.py\ntest | python3 fails.py\ngate | rt ci\npython3 silent.py\npython3 reads.py LOG\n", first=FIRST, silent=SILENT, fails=FAILS, reads=READS)
    tests.holds("all steps pass, and all are counted", status == 0 and lines[-1] == "13 passed, 0 failed", (lines, shown))
    tests.holds("what rt ci printed is handed on", "2 passed" in lines, lines)
    tests.holds("what wasn't run stands before the count", lines[-2] == "not run: nasm is missing", lines)
    tests.holds("the commit is told", re.fullmatch(r"gate: commit [0-9a-f]{40}", lines[0]), lines[:1])
    tests.holds("the commit and the machine are told at the end too", [line for line in lines if line.startswith(("gate: commit", "gate: machine"))] == 2 * lines[:2], lines)
    tests.holds("and the machine", re.match(r"gate: machine \d+ processors, .*; kit none$", lines[1]), lines[1:2])
    crates = [line for line in lines if line.startswith("gate: crate ")]
    tests.holds("a crate is kept", crates[:1] == ["gate: crate high: proof 0 s to - min, tests 0 s to - min, edits 0 s, memory 0.0 GB, kept"], crates)
    of_low = re.fullmatch(r"gate: crate low: proof \d s to [\d.]+ min, tests \d s to [\d.]+ min, edits 0 s, memory [\d.]+ GB", crates[-1])
    tests.holds("what a crate takes is told", of_low, crates)
    ends = [line for line in lines if line.startswith("gate: ended: ")]
    tests.holds("each step's end is told, and all again at the end", len(ends) == 8 and ends[:4] == ends[4:] and re.match(r"gate: ended: rt ci: status 0, 7 passed, [\d.]+ s by the clock, [\d.]+ s of processor time$", ends[1]), ends)


def of_watching(tests):
    """What a process called as the prover is takes is seen while it runs, and what it took when it has ended."""
    script = tests.room / "rattle"
    script.write_text(RATTLE, encoding="utf-8")
    words = ["bash", "-c", 'exec -a rattle python3 "$0" check --crate-name low', script]
    watching = watch.Watch(os.getpid())
    with subprocess.Popen(words, stdin=subprocess.PIPE, stdout=subprocess.PIPE, text=True) as running:
        running.stdout.readline()
        watching.look()
        running.stdin.close()
    watching.look()
    watching.start()
    crates = watching.end()
    tests.holds("a crate's seconds are seen", list(crates) == ["low"] and 0.4 < crates["low"]["proof"] < 5 and not crates["low"]["tests"], crates)
    tests.holds("and its memory", 1e6 < crates["low"]["memory"] < 1e9, crates)


def of_failing(tests):
    status, lines, _ = tests.gate("python3 first.py\npython3 fails.py\ngate | rt ci\n", first=FIRST, fails=FAILS)
    tests.holds("a step fails", status == 1 and lines[-1] == "3 passed, 1 failed", lines)
    tests.holds("what is behind it isn't run", not any("rt ci" in line for line in lines), lines)
    status, lines, _ = tests.gate("python3 first.py\ngate | rt ci\npython3 first.py\n", first=FIRST, rt="#!/bin/sh\necho '5 passed, 2 failed'\nexit 1\n")
    tests.holds("rt ci fails", status == 1 and lines[-1] == "8 passed, 2 failed", lines)
    status, lines, _ = tests.gate("no_such_program\n")
    tests.holds("a step that isn't there", status == 1 and lines[-1] == "0 passed, 1 failed", lines)


def of_words(tests):
    for said, count in (("a: 41 passed", 41), ("x\n1,024 passed, 0 failed\n\n", 1024), ("a: 0 differ", 1), ("5 passed\nlast", 1), ("", 1), ("0 passed, 0 failed", 0)):
        tests.holds(f"{said!r} is counted", steps.count_of(said) == count, steps.count_of(said))
    words = ["/kit/bin/rattle", "check", "--crate-name", "low", "src/lib.rt"]
    tests.holds("a proof", watch.share_of(words) == ("low", "proof"))
    tests.holds("a test's", watch.share_of([*words, "--test"]) == ("low", "tests"))
    tests.holds("an edit's", watch.share_of([*words, "--incremental", "/tmp/rt-edits-1-x/seed"]) == ("low", "edits"))
    tests.holds("no crate's", watch.share_of(["/kit/bin/rattle", "fmt"]) is None and watch.share_of(["clang", *words[1:]]) is None)
    tests.holds("use/test takes its own steps", ["c/test/run", "unproved"] in steps.steps("test") and ["rt", "ci"] not in steps.steps("test"))
    tests.holds("the gate has rt ci once", steps.steps("gate").count(["rt", "ci"]) == 1 and ["c/test/run", "unproved"] not in steps.steps("gate"))
    missing = [words for who in ("gate", "test") for words in steps.steps(who) if words[0] != "rt" and not (steps.ROOT / words[words[0] == "python3"]).is_file()]
    tests.holds("each script is there", not missing, missing)


def main():
    with tempfile.TemporaryDirectory(prefix="gate-") as room:
        tests = Tests(room)
        of_passing(tests)
        of_watching(tests)
        of_failing(tests)
        of_words(tests)
    print(f"test_run_gate: {tests.passed} passed, {tests.failed} failed")
    return 1 if tests.failed else 0


if __name__ == "__main__":
    sys.exit(main())
