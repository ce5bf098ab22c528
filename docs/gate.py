#!/usr/bin/env python3
"""Writes what the gate takes into docs/GATE.md, of what a run of it printed: docs/gate.py LOG

LOG is the standard output of .ci/run, or its end. The part of the page between its two marks is written anew: of which commit and machine the
run was, what each step and each crate took, and what was kept from earlier runs. A log is refused that doesn't end with `0 failed`, that
is of a checkout with changes, or that is of a commit between which and this checkout anything but pages (*.md) differs.

The status is 0 where the page is written, and 2 where something is refused: then it stays as it is.
"""

import re
import subprocess
import sys
import textwrap
from pathlib import Path
from typing import NamedTuple

ROOT = Path(__file__).resolve().parent.parent
PAGE = ROOT / "docs/GATE.md"
BEGIN, END = "<!-- What follows is written by docs/gate.py. -->", "<!-- What docs/gate.py writes ends here. -->"
COMMIT = re.compile(r"^gate: commit ([0-9a-f]{40})(, with changes)?$", re.MULTILINE)
MACHINE = re.compile(r"^gate: machine (.*)$", re.MULTILINE)
STEP = re.compile(r"^gate: ended: (.*): status 0, (\d+) passed, ([\d.]+) s by the clock, ([\d.]+) s of processor time$", re.MULTILINE)
CRATE = re.compile(r"^gate: crate (\w+): proof (\S+) s to (\S+) min, tests (\S+) s to (\S+) min, edits (\S+) s, memory (\S+) GB(, kept)?$", re.MULTILINE)
ALL = re.compile(r"^gate: all: ([\d.]+) s by the clock, ([\d.]+) s of processor time$", re.MULTILINE)
REFUSED = re.compile(r"; must-fail edits: (\d+) refused")
LAST = re.compile(r"^(\d+) passed, 0 failed$")
NOTHING = ("-", "0", "0.0")
OF_CRATES = (
    "Of `rt ci`, in seconds of the processor: the proof of each crate and, for a program, its compilation; its tests; its edits, with their "
    "number. *Memory* is the most at once, and the last two columns are minutes by the clock, from its beginning. `-` is nothing, or what "
    "the log doesn't tell; a column of which it tells nothing is left out."
)


class Refused(Exception):
    """Why nothing is written."""


class Crate(NamedTuple):
    name: str
    proof: str
    proved_at: str
    tests: str
    tested_at: str
    edits: str
    memory: str
    kept: str

    def seconds(self):
        return sum(float(word) for word in (self.proof, self.tests, self.edits) if word != "-")


def one(form, text, what):
    found = form.search(text)
    if not found:
        raise Refused(f"the log has no line of {what}")
    return found


def judge_commit(text):
    """The log's commit, which this checkout has to be, but for pages."""
    found = one(COMMIT, text, "the commit")
    if found[2]:
        raise Refused("the log is of a checkout with changes")
    done = subprocess.run(["git", "-C", ROOT, "diff", "--name-only", found[1], "--", ".", ":(exclude)*.md"], capture_output=True, text=True, check=False)
    if done.returncode:
        raise Refused(f"the log is of commit {found[1][:8]}, which this checkout doesn't know")
    if done.stdout.strip():
        raise Refused(f"the log is of commit {found[1][:8]}, and {done.stdout.split()[0]} differs since then")
    return found[1]


def minutes(seconds):
    return f"{float(seconds) / 60:,.0f}"


def filled(text):
    return textwrap.fill(text, 130, break_long_words=False, break_on_hyphens=False)


def shown(word):
    return "-" if word in NOTHING else f"{float(word):,.0f}"


def after(word):
    return "-" if word == "-" else f"{float(word):.0f}"


def table(head, rows):
    """A table of the columns of which something is told."""
    kept = [number for number in range(len(head)) if any(row[number] != "-" for row in rows)]
    head, rows = [head[number] for number in kept], [[row[number] for number in kept] for row in rows]
    return ["| " + " | ".join(head) + " |", "|" + "---|" * len(head), *("| " + " | ".join(row) + " |" for row in rows)]


def edits_of(name):
    return len(list((ROOT / "crates" / name / "must-fail").glob("*.edit")))


def of_crates(crates):
    """The table of crates, the dearest first, and those that take least in one line."""
    head = ["Crate", "Proof", "Tests", "Edits", "All", "Memory", "Proved after", "Tests proved after"]
    rows = []
    for crate in sorted(crates, key=lambda crate: (-crate.seconds(), float(crate.proved_at) if crate.proved_at != "-" else 0, crate.name)):
        count = edits_of(crate.name)
        edits = f"{shown(crate.edits)} ({count})".removeprefix("- ") if count else "-"
        memory = "-" if crate.memory in NOTHING else f"{float(crate.memory):.1f} GB"
        proved = "kept" if crate.kept else after(crate.proved_at)
        all_seconds = shown(str(crate.seconds()))
        rows.append([f"`{crate.name}`", shown(crate.proof), shown(crate.tests), edits, all_seconds, memory, proved, after(crate.tested_at)])
    return table(head, rows)


def page_of(text):
    """The part of the page that a log gives."""
    last = LAST.match(text.rstrip().splitlines()[-1]) if text.strip() else None
    if not last:
        raise Refused("the log doesn't end with `N passed, 0 failed`")
    commit, machine, whole = judge_commit(text), one(MACHINE, text, "the machine")[1], one(ALL, text, "what all took")
    # (what the page has is told once more at the end)
    steps, crates = list(dict.fromkeys(STEP.findall(text))), [Crate(*found) for found in CRATE.findall(text)]
    if not crates:
        raise Refused("the log has no line of a crate")
    kept = sum(bool(crate.kept) for crate in crates)
    from_nothing = "Nothing was kept from earlier runs" if not kept else f"{kept} of the {len(crates)} crates were kept from earlier runs, so they took nothing"
    refused = REFUSED.search(text)
    edits = f" {refused[1]} must-fail edits were refused." if refused else ""
    lines = [filled(f"A run of commit `{commit[:8]}`, on {machine}. It took {minutes(whole[1])} minutes by the clock and {minutes(whole[2])} of processor "
                    f"time, and ended with `{last[0]}`.{edits} {from_nothing}."), ""]
    lines += table(["Step", "Passed", "Seconds by the clock", "Seconds of the processor"],
                   [[f"`{name}`", count, f"{float(clock):,.0f}", f"{float(processor):,.0f}"] for name, count, clock, processor in steps])
    lines += ["", filled(OF_CRATES), ""]
    return "\n".join([*lines, *of_crates(crates)])


def written(page, part):
    if page.count(BEGIN) != 1 or page.count(END) != 1 or page.index(BEGIN) > page.index(END):
        raise Refused(f"{PAGE.name} has no place for it between its two marks")
    return f"{page[: page.index(BEGIN)]}{BEGIN}\n\n{part}\n\n{page[page.index(END) :]}"


def main(words):
    if len(words) != 1 or words[0].startswith("-"):
        print(__doc__, file=sys.stderr)
        return 2
    try:
        text = Path(words[0]).read_text(encoding="utf-8", errors="replace")
        page = written(PAGE.read_text(encoding="utf-8"), page_of(text))
    except (Refused, OSError) as why:
        print(f"gate: nothing is written: {why}", file=sys.stderr)
        return 2
    PAGE.write_text(page, encoding="utf-8")
    print(f"gate: {PAGE.relative_to(ROOT)} is written")
    return 0


if __name__ == "__main__":
    sys.exit(main(sys.argv[1:]))
