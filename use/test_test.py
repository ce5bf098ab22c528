#!/usr/bin/env python3
"""Runs use/test in a checkout of its own, whose crates are empty and whose `rt` is a script that says what a crate's file `says` has."""

import shutil
import subprocess
import sys
import tempfile
from pathlib import Path

HERE = Path(__file__).resolve().parent
# It shows its words and its input, then what the crate says on both outputs, and ends with status 0.
RT = """\
#!/bin/sh
name=$(basename "$PWD")
{ echo "$*"; cat; } >called
[ -f says ] && cat says
[ -f complains ] && cat complains >&2
exit 0
"""
ENDED = "run=ended status={} runners=1 proved=no\n"
CRATES = {
    "low": {"src/lib.rt": "pub fn f() {}\n"},
    "good": {"src/lib.rt": "#[cfg(test)]\nmod tests;\n", "src/tests.rt": "#[test]\nfn t() {}\n", "says": "tests: 4\ntest result: ok. 4 passed; 0 failed; 0 ignored\n", "complains": ENDED.format(0)},
    "bad": {"src/lib.rt": "#[test]\nfn t() {}\n", "says": "test t ... FAILED\ntest result: FAILED. 2 passed; 3 failed; 0 ignored\n", "complains": ENDED.format(1)},
    "broken": {"src/lib.rt": "#[test]\nfn t() {}\n", "complains": "error: it doesn't compile\n"},
    "prints": {"src/main.rt": "fn main() {}\n", "args": "one\ntwo words\n", "stdin": "given\n", "stdout": "42\n", "data/a.tsv": "x", "data/deep/b": "y", "says": "42\n", "complains": ENDED.format(0)},
    "ends": {"src/main.rt": "fn main() {}\n", "status": "3\n", "complains": ENDED.format(3)},
    "differs": {"src/main.rt": "fn main() {}\n", "stdout": "42\n", "says": "43\n", "complains": ENDED.format(0)},
    "stops": {"src/main.rt": "fn main() {}\n", "complains": ENDED.format(1)},
    "faults": {"src/main.rt": "fn main() {}\n", "complains": "checked: fault\nrun=none proved=no\n"},
}
STEPS = "python3 counts.py\ngate | python3 nowhere.py\ntest | python3 silent.py\n"
PASS = ["low", "good", "prints", "ends"]


class Tests:
    def __init__(self, room):
        self.folder, self.passed, self.failed = room / "checkout", 0, 0
        (self.folder / "use").mkdir(parents=True)
        for name in ("test", "steps.py"):
            shutil.copy(HERE / name, self.folder / "use" / name)
        (self.folder / "use/steps.txt").write_text(STEPS, encoding="utf-8")
        (self.folder / "counts.py").write_text("print('not run: nothing of it')\nprint('counts: 10 passed')\n", encoding="utf-8")
        (self.folder / "silent.py").write_text("print('silent: 0 differ')\n", encoding="utf-8")
        self.bin = room / "bin"
        self.bin.mkdir()
        (self.bin / "rt").write_text(RT, encoding="utf-8")
        (self.bin / "rt").chmod(0o755)

    def crates(self, names):
        (self.folder / "crates.txt").write_text("# Crates.\n" + "".join(f"{name}: {'low' if name != 'low' else ''}\n" for name in names), encoding="utf-8")
        for name in names:
            for file, text in CRATES[name].items():
                path = self.folder / "crates" / name / file
                path.parent.mkdir(parents=True, exist_ok=True)
                path.write_text(text, encoding="utf-8")

    def run(self, *words):
        done = subprocess.run(["sh", "-c", f'PATH="{self.bin}:$PATH" exec python3 -B use/test "$@"', "", *words], cwd=self.folder, stdin=subprocess.DEVNULL, capture_output=True, text=True, check=False)
        return done.returncode, done.stdout.splitlines(), done.stderr

    def holds(self, what, does, shown=""):
        self.passed += bool(does)
        self.failed += not does
        if not does:
            print(f"test_test: not so: {what}\n{shown}")


def of_passing(tests):
    tests.crates(PASS)
    status, lines, said = tests.run("-j", "2")
    tests.holds("all pass: four tests, two programs, and the scripts", status == 0 and lines[-1] == "17 passed, 0 failed", (lines, said))
    tests.holds("that nothing was proved stands before it", lines[-2].startswith("nothing was proved: "), lines)
    tests.holds("and before that what wasn't run", lines[-3] == "not run: nothing of it", lines)
    tests.holds("what is to come is told first", lines[0].startswith("5 to run, 2 at a time: ") and "tests of good" in lines[0] and "silent.py" in lines[0], lines)
    ended = [line for line in lines if " s: " in line]
    tests.holds("each has a line as it ends", len(ended) == 5 and ended[0].endswith("3 to come") and ended[-1].endswith("; 0 to come"), ended)
    called = (tests.folder / "crates/prints/called").read_text(encoding="utf-8")
    tests.holds("a program gets its words, its input and its files", called == "try --seconds 900 --data a.tsv=data/a.tsv --data deep/b=data/deep/b -- one two words\ngiven\n", called)
    status, lines, said = tests.run("good")
    tests.holds("one crate alone", status == 0 and lines[-1] == "4 passed, 0 failed" and lines[-3] == "all was run", (lines, said))


def of_failing(tests):
    tests.crates(list(CRATES))
    status, lines, _ = tests.run()
    tests.holds("what fails is counted", status == 1 and lines[-1] == "19 passed, 7 failed", lines)
    failed = [line for line in lines if line.startswith("failed: ")]
    wanted = {"tests of bad", "tests of broken", "differs", "stops", "faults"}
    tests.holds("and named", failed and set(failed[0].removeprefix("failed: ").split(", ")) == wanted, failed)
    for shown in ("test t ... FAILED", "error: it doesn't compile", "differs from its file stdout at byte 2: b'3\\n', and not b'2\\n'", "it ended with status 1, and not 0", "checked: fault"):
        tests.holds(f"what failed is shown: {shown}", any(shown in line for line in lines), lines)
    tests.holds("a crate that isn't there", tests.run("no_such")[0] == 2 and "no_such is no crate" in tests.run("no_such")[2])
    tests.holds("words that aren't", [tests.run(*words)[0] for words in (("-j",), ("-j", "0"), ("--all",))] == [2, 2, 2])


def main():
    with tempfile.TemporaryDirectory(prefix="test-") as room:
        tests = Tests(Path(room))
        of_passing(tests)
        of_failing(tests)
    print(f"test_test: {tests.passed} passed, {tests.failed} failed")
    return 1 if tests.failed else 0


if __name__ == "__main__":
    sys.exit(main())
