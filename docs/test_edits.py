#!/usr/bin/env python3
"""Tests docs/edits.py over a small repository that it makes in a folder of its own: each kind of refusal, seen and told.

Run anywhere: python3 docs/test_edits.py. The status is 0 where all tests pass, and else 1; the last line counts them.
"""
import contextlib
import io
import sys
import tempfile
from pathlib import Path

import edits

SOURCE = """//! Rounds.

/// Whether a distance reaches.
fn reaches(end: u32) -> bool
    requires small { end < 8 }
    ensures { IsTrue result }
{
    end <= 127
}

impl<A: Allocator> Sink for Buffer<A> {
    #[inline]
    fn put(&mut self, n: u32) -> Result<(), Error> {
        self.held.put(n)
    }

    fn round(&mut self) -> bool
        ensures grew { OnTrue result (
            long) }
        ensures settled { OnFalse result }
    {
        lengthen(self)
    }
}

pub trait Sink {
    /// Puts it.
    fn put(&mut self, n: u32) -> Result<(), Error>
        ensures step { Step n }
        ensures beside { Beside };
}
"""

ANSWERS = """use A.{b}

pub returns-clause-grew : goal.returns-clause-grew
returns-clause-grew c =
    search rules

helper : (a : N) -> a
helper a = refl
"""

PUT = """
pub returns-clause-step : goal.returns-clause-step
returns-clause-step c = search rules
"""

TOLD = "it is not proved that what the function ensures holds when it returns"
REFUSED = "refused, as it must be"
AT_REACHES, AT_ROUND = f"{REFUSED}: note: src/rounds.rt:4:1: {TOLD}", f"{REFUSED}: note: src/rounds.rt:17:5: {TOLD}"
LESS = "only because a proof file names what the edit took away, so this says little of the contract"

# The edit's own lines, what rt says of it, and how edits.py's sentence begins, if it has one.
CASES = {
    "a lone clause": ("# clause: reaches ensures", f"{AT_REACHES} (`returns`); the facts", ""),
    "a branch of it": ("# clause: rounds::reaches ensures", f"{AT_REACHES} (`returns-else-end`); the", ""),
    "a clause by name": ("# clause: Buffer::round settled", f"{AT_ROUND} (`returns-then-a-clause-settled`)", ""),
    "another clause": (
        "# clause: Buffer::round settled",
        f"{AT_ROUND} (`returns-clause-grew`)", "it names Buffer::round settled, and"),
    "clauses proved together": ("# clause: Buffer::round grew", f"{AT_ROUND} (`returns`); `sea", ""),
    "a goal that is cut off": ("# clause: reaches ensures", f"{AT_REACHES} (`returns-else-en", ""),
    "another function": ("# clause: reaches ensures", f"{AT_ROUND} (`returns`)", "it names reaches ensures, and"),
    "seen elsewhere, with a reason": (
        "# clause: Buffer::round grew\n# seen: reaches ensures: it is called first",
        f"{AT_REACHES} (`returns`)", ""),
    "seen elsewhere, without one": (
        "# clause: Buffer::round grew\n# seen: reaches ensures:",
        f"{AT_REACHES} (`returns`)", "it names Buffer::round grew, and"),
    "a clause of its trait": (
        "# clause: Buffer::put step",
        f"{REFUSED}: note: src/rounds.rt:13:5: {TOLD} (`returns-clause-step`)", ""),
    "an attribute's line": (
        "# clause: Buffer::put beside",
        f"{REFUSED}: note: src/rounds.rt:12:5: {TOLD} (`returns-clause-beside`)", ""),
    "a loop's invariant": (
        "# clause: Buffer::round grew",
        f"{REFUSED}: note: src/rounds.rt:20:9: the loop (`loop-n-preserved`)", ""),
    "what a call requires": (
        "# clause: reaches put-requires",
        f"{REFUSED}: note: src/rounds.rt:8:5: a call (`put-requires-else-end`)", ""),
    "a stored proof's goal": (
        "# clause: Buffer::round grew",
        f"{REFUSED}: ./proofs/rounds/BufferSink/round/Answers.antt:5:4: error: no", ""),
    "a stored proof of a trait's method": (
        "# clause: Buffer::put step",
        f"{REFUSED}: ./proofs/rounds/BufferSink/put/Answers.antt:3:4: error", ""),
    "a lemma beside it": (
        "# clause: Buffer::round grew",
        f"{REFUSED}: ./proofs/rounds/BufferSink/round/Answers.antt:8:4: error: no", "it names Buffer::round grew, and"),
    "a lemma's file": (
        "# clause: Buffer::round grew",
        f"{REFUSED}: proofs/Lemmas.antt:1:1: error: no", "it names Buffer::round grew, and"),
    "a lemma by its name, with a reason": (
        "# clause: Buffer::round grew\n# seen: proofs/Lemmas.antt all_do: computed first",
        f"{REFUSED}: ./proofs/Lemmas.antt:1:1: error: `all_do`: expected", ""),
    "a goal by its name": (
        "# clause: Buffer::round settled",
        f"{REFUSED}: ./proofs/rounds/BufferSink/round/Answers.antt:1:1: error: `returns-clause-settled`: no", ""),
    "no place": ("# clause: reaches ensures", REFUSED, "rt tells no place"),
    "a name that is gone": (
        "# clause: reaches ensures",
        f"{REFUSED} ({LESS}): ./proofs/x/Answers.antt:1:1: e", "rt says less: only because a proof"),
    "a limit": (
        "# clause: reaches ensures",
        f"{REFUSED} (only by a limit of the prover): src/rounds.rt:4:1: error", "rt says less: only by a limit"),
    "an edit that is still proved": ("# clause: reaches ensures", "NOT REFUSED: the crate is still proved", "NOT REFUSED"),
    "a bad edit": ("# clause: reaches ensures", "BAD EDIT: it has no 'old:'", "BAD EDIT"),
    "no line": ("", f"{AT_REACHES} (`returns`)", "it has no line"),
    "half a line": ("# clause: reaches", f"{AT_REACHES} (`returns`)", "it has no line"),
    "no such function": ("# clause: reach ensures", f"{AT_REACHES} (`returns`)", "there is no function reach"),
    "no such clause": ("# clause: Buffer::round ensures", f"{AT_ROUND} (`returns`)", "Buffer::round has no clause ensures"),
}


class Tests:
    def __init__(self, root):
        self.root, self.failed, self.passed = root, 0, 0

    def holds(self, what, does, shown=""):
        self.passed += bool(does)
        self.failed += not does
        if not does:
            print(f"test_edits: not so: {what}\n{shown}")

    def write(self, path, text):
        to = self.root / path
        to.parent.mkdir(parents=True, exist_ok=True)
        to.write_text(text, encoding="utf-8")
        return str(to)

    def run(self, *words):
        """The status of a call, and what it prints."""
        with contextlib.redirect_stdout(io.StringIO()) as out, contextlib.redirect_stderr(io.StringIO()) as err:
            try:
                status = edits.main(list(words), self.root)
            except SystemExit as ended:
                status = ended.code
        return status, out.getvalue(), err.getvalue()

    def page(self):
        return (self.root / edits.PAGE).read_text(encoding="utf-8")

    def judges(self):
        """Each case alone: what is told of it."""
        for what, (lines, said, problem) in CASES.items():
            name = what.replace(" ", "_").replace(",", "").replace("'", "")
            edit = Path(self.write(f"crates/x/must-fail/{name}.edit", f"{lines}\nfile: src/rounds.rt\nold: a\nnew: b\n"))
            log = self.write("log", f"some line\nrt: must-fail x/{name}.edit: {said}\n")
            status, out, _ = self.run("--write", log)
            told = next((line for line in out.splitlines() if line.startswith(f"x/{name}: ")), "")
            wanted = f"x/{name}: {problem}" if problem else ""
            self.holds(what, told.startswith(wanted) and bool(told) == bool(problem) and status == int(bool(problem)), out)
            edit.unlink()

    def keeps_a_page(self):
        """The page is written of a log, stays as it is, and is told where an edit changes."""
        self.write("crates/x/must-fail/one.edit", "# clause: reaches ensures\nfile: src/rounds.rt\nold: a\nnew: b\n")
        log = self.write("log", f"rt: must-fail x/one.edit: {AT_REACHES} (`returns`)\n")
        self.holds("a page that lacks an edit is told", self.run(log)[0] == 1, self.run(log))
        self.holds("the page is written", self.run("--write", log)[0] == 0)
        self.holds("it has what was seen", "\nx/one: reaches ensures; rounds::reaches returns\n" in self.page(), self.page())
        self.holds("then all holds", self.run(log)[0] == self.run()[0] == 0, self.run(log))
        other = self.write("other", f"rt: must-fail x/one.edit: {AT_REACHES} (`returns-else-end`)\n")
        status, out, _ = self.run(other)
        self.holds("another goal of the same clause is noted", status == 0 and "note: docs/edits.txt has of x/one" in out, out)
        self.write("crates/x/must-fail/two.edit", "# clause: reaches ensures\nfile: src/rounds.rt\nold: a\nnew: b\n")
        self.holds("an edit that no log has is told", "x/two: no log has it" in self.run(log)[1])
        self.holds("an edit that the page lacks is told", "docs/edits.txt: x/two stands there otherwise" in self.run()[1])
        self.run("--write", log)
        is_so = self.run()[0] == 0 and "x/two: reaches ensures; not seen yet\n" in self.page()
        self.holds("an edit that wasn't seen is kept so", is_so, self.page())
        first = self.write("first", Path(log).read_text() + f"rt: must-fail x/two.edit: {AT_ROUND} (`returns`)\n")
        status, out, _ = self.run(first)
        self.holds("and is told where it is seen elsewhere", status == 0 and "note: x/two, which docs/edits.txt has" in out, out)
        (self.root / "crates/x/must-fail/two.edit").unlink()
        self.holds("an edit that went is told", self.run(log)[0] == 1)
        self.run("--write", log)
        self.write("crates/x/must-fail/one.edit", "# clause: reaches ensure\nfile: src/rounds.rt\nold: a\nnew: b\n")
        self.holds("a line that changed is told without a log", "has no clause ensure" in self.run()[1])

    def refuses_calls(self):
        self.holds("an unknown word", self.run("--check")[0] == 2)
        self.holds("--write without a log", self.run("--write")[0] == 2)
        self.holds("a log that isn't there", self.run("nowhere.log")[0] == 2 and "can't be read" in self.run("nowhere.log")[2])


def main():
    with tempfile.TemporaryDirectory() as folder:
        tests = Tests(Path(folder))
        tests.write("crates/x/src/rounds.rt", SOURCE)
        tests.write("crates/x/proofs/rounds/BufferSink/round/Answers.antt", ANSWERS)
        tests.write("crates/x/proofs/rounds/BufferSink/put/Answers.antt", PUT)
        tests.write("docs/none", "")
        tests.judges()
        tests.keeps_a_page()
        tests.refuses_calls()
    print(f"{tests.passed} passed, {tests.failed} failed")
    return 1 if tests.failed else 0


if __name__ == "__main__":
    sys.exit(main())
