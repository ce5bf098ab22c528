#!/usr/bin/env python3
"""Gives gate.py logs in a checkout of its own, which it has to write into the page or to refuse."""

import shutil
import subprocess
import sys
import tempfile
from pathlib import Path

HERE = Path(__file__).resolve().parent
PAGE = "# The gate\n\nBefore.\n\n<!-- What follows is written by docs/gate.py. -->\n\nold\n\n<!-- What docs/gate.py writes ends here. -->\n\nBehind.\n"
LOG = """\
gate: commit {commit}{changes}
gate: machine 2 processors, of a kind, 8 GB; kit-1 logic 2
gate: begins: python3 docs/quotes.py
41 quoted, 0 lost
gate: ended: python3 docs/quotes.py: status 0, 1 passed, 0.2 s by the clock, 0.1 s of processor time
rt: low proved
rt: ok; handles allowed: none; must-fail edits: 205 refused; every proof and must-fail edit was done in this run
269 passed, 0 failed
gate: crate high: proof 2 s to 3.0 min, tests 0 s to - min, edits 0 s, memory 1.0 GB{kept}
gate: crate low: proof 1200 s to 12.6 min, tests 45 s to 20.2 min, edits 30 s, memory 2.4 GB
gate: ended: rt ci: status 0, 269 passed, 7366.1 s by the clock, 22746.4 s of processor time
gate: commit {commit}{changes}
gate: ended: python3 docs/quotes.py: status 0, 1 passed, 0.2 s by the clock, 0.1 s of processor time
gate: ended: rt ci: status 0, 269 passed, 7366.1 s by the clock, 22746.4 s of processor time
gate: all: 7500.0 s by the clock, 23000.0 s of processor time
not run: nasm is missing
{last}
"""
# What the page has to have behind a run from nothing. The numbers are those of the log, in minutes where the page says so.
WANTED = (
    "on 2 processors, of a kind, 8 GB; kit-1 logic 2. It took 125 minutes by the clock and 383 of processor time, and ended "
    "with `270 passed, 0 failed`. 205 must-fail edits were refused. Nothing was kept from earlier runs. ",
    "| `python3 docs/quotes.py` | 1 | 0 | 0 | | `rt ci` | 269 | 7,366 | 22,746 | ",
    "| `low` | 1,200 | 45 | 30 (2) | 1,275 | 2.4 GB | 13 | 20 | | `high` | 2 | - | - | 2 | 1.0 GB | 3 | - | ",
)


class Tests:
    def __init__(self, folder):
        self.folder, self.page, self.passed, self.failed = folder, folder / "docs/GATE.md", 0, 0

    def git(self, *words):
        done = subprocess.run(["git", "-C", self.folder, "-c", "user.name=a", "-c", "user.email=b", *words], check=True, capture_output=True, text=True)
        return done.stdout.strip()

    def commit(self):
        self.git("add", "-A")
        self.git("commit", "-q", "-m", "c")
        return self.git("rev-parse", "HEAD")

    def holds(self, what, does, shown=""):
        self.passed += bool(does)
        self.failed += not does
        if not does:
            print(f"test_gate: not so: {what}\n{shown}")

    def write(self, text):
        log = self.folder.parent / "log"
        log.write_text(text, encoding="utf-8")
        done = subprocess.run([sys.executable, "-B", self.folder / "docs/gate.py", log], capture_output=True, text=True, check=False)
        return done.returncode, done.stderr, self.page.read_text(encoding="utf-8")

    def refuses(self, what, text, sentence):
        before = self.page.read_text(encoding="utf-8")
        status, said, page = self.write(text)
        self.holds(what, status == 2 and f"nothing is written: {sentence}" in said and page == before, (status, said))


def log(commit, changes="", kept="", last="270 passed, 0 failed"):
    return LOG.format(commit=commit, changes=changes, kept=kept, last=last)


def set_up(folder):
    (folder / "docs").mkdir(parents=True)
    shutil.copyfile(HERE / "gate.py", folder / "docs/gate.py")
    (folder / "docs/GATE.md").write_text(PAGE, encoding="utf-8")
    edits = folder / "crates/low/must-fail"
    edits.mkdir(parents=True)
    for name in ("one.edit", "two.edit"):
        (edits / name).touch()


def tried(tests, commit):
    status, said, page = tests.write(log(commit))
    tests.holds("a log is written into the page", status == 0 and page.startswith("# The gate\n\nBefore.\n") and page.endswith("\n\nBehind.\n"), (said, page))
    tests.holds("of its commit", f"A run of commit `{commit[:8]}`, on" in page, page)
    for wanted in WANTED:
        tests.holds("as the log has it", wanted in " ".join(page.split()), page)
    tests.holds("what stood there is gone", "\nold\n" not in page, page)
    tests.holds("once more changes nothing", tests.write(log(commit))[2] == page)
    kept = tests.write(log(commit, kept=", kept"))[2]
    tests.holds("what was kept is told", "1 of the 2 crates were kept from earlier runs" in kept and "| kept | - |" in kept, kept)
    tests.refuses("a checkout with changes", log(commit, changes=", with changes"), "the log is of a checkout with changes")
    tests.refuses("a run that failed", log(commit, last="269 passed, 1 failed"), "the log doesn't end with")
    tests.refuses("a log that is cut off", log(commit).rsplit("gate: all", 1)[0] + "270 passed, 0 failed\n", "the log has no line of what all took")
    tests.refuses("no log", "", "the log doesn't end with")
    tests.refuses("a commit that isn't known", log("0" * 40), "the log is of commit 00000000, which this checkout doesn't know")
    (tests.folder / "README.md").write_text("A page.\n", encoding="utf-8")
    tests.commit()
    tests.holds("a page may have changed", tests.write(log(commit))[0] == 0)
    (tests.folder / "crates.txt").write_text("low:\n", encoding="utf-8")
    last = tests.commit()
    tests.refuses("another commit's", log(commit), f"the log is of commit {commit[:8]}, and crates.txt differs since then")
    tests.page.write_text("No marks.\n", encoding="utf-8")
    tests.refuses("a page without marks", log(last), "GATE.md has no place for it")


def main():
    with tempfile.TemporaryDirectory(prefix="gate-") as room:
        folder = Path(room) / "checkout"
        set_up(folder)
        tests = Tests(folder)
        tests.git("init", "-q")
        tried(tests, tests.commit())
    print(f"test_gate: {tests.passed} passed, {tests.failed} failed")
    return 1 if tests.failed else 0


if __name__ == "__main__":
    sys.exit(main())
