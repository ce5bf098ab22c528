#!/usr/bin/env python3
"""Runs the merge gate, for .ci/run: the test command of the README, `rt ci`, and before and behind it what no crate can see, as
use/steps.txt lists it.

It stops at the first step that fails. What each step and each crate takes stands in lines that begin with `gate: `, of which
docs/gate.py writes a part of docs/GATE.md: all of them stand at the end, so that who has only the end of a log can write the page.
What wasn't run on this machine stands in the lines before the last; that is `N passed, M failed`, and counts all that was run. The
status is 0 only where M is 0.
"""

import os
import re
import resource
import subprocess
import sys
import tempfile
import time
from pathlib import Path

import steps
import watch

PROVED = re.compile(r"^rt: (\w+)(: its tests are)? proved$")
KEPT = re.compile(r"^rt: (\w+) is kept: ")
FAILED = re.compile(r"\d+ passed, (\d+) failed")


TOLD = []


def say(text):
    print(f"gate: {text}", flush=True)


def tell(text):
    """Says what the page has of a run, and once more at its end."""
    say(text)
    TOLD.append(text)


def output_of(*words):
    try:
        return subprocess.run(words, cwd=steps.ROOT, capture_output=True, text=True, check=False).stdout.strip()
    except OSError:
        return ""


def processor_seconds():
    usage = resource.getrusage(resource.RUSAGE_CHILDREN)
    return usage.ru_utime + usage.ru_stime


def tell_of_machine():
    """The commit, and on what it is judged."""
    changes = ", with changes" if output_of("git", "status", "--porcelain") else ""
    tell(f"commit {output_of('git', 'rev-parse', 'HEAD') or 'none'}{changes}")
    models = re.findall(r"^model name\s*: (.*)$", Path("/proc/cpuinfo").read_text(encoding="utf-8"), re.MULTILINE)
    memory = os.sysconf("SC_PAGE_SIZE") * os.sysconf("SC_PHYS_PAGES") / 1e9
    tell(f"machine {len(os.sched_getaffinity(0))} processors, {models[0] if models else 'of no name'}, {memory:.0f} GB; {output_of('rt', 'version')}")


class Step:
    """A command that runs, what it says, and when it said that a crate was proved."""

    def __init__(self, words):
        self.words, self.name = words, " ".join(words)
        self.said, self.proved, self.kept = [], {}, set()

    def hear(self, line, minutes):
        self.said.append(line)
        proved, kept = PROVED.match(line), KEPT.match(line)
        if proved:
            self.proved[proved[1], "tests" if proved[2] else "proof"] = minutes
        if kept:
            self.kept.add(kept[1])

    def run(self):
        """Runs it, and gives its status."""
        begun, before = time.monotonic(), processor_seconds()
        say(f"begins: {self.name}")
        try:
            running = subprocess.Popen(self.words, cwd=steps.ROOT, stdin=subprocess.DEVNULL, stdout=subprocess.PIPE, text=True, errors="replace", bufsize=1)
        except OSError as why:
            say(f"{self.name}: {why}")
            return 2
        watching = watch.Watch(running.pid) if self.words == ["rt", "ci"] else None
        if watching:
            watching.start()
        for line in running.stdout:
            print(line, end="", flush=True)
            self.hear(line.rstrip("\n"), (time.monotonic() - begun) / 60)
        status = running.wait()
        if watching:
            self.tell_of_crates(watching.end())
        clock, processor = time.monotonic() - begun, processor_seconds() - before
        tell(f"ended: {self.name}: status {status}, {self.count()} passed, {clock:.1f} s by the clock, {processor:.1f} s of processor time")
        return status

    def tell_of_crates(self, crates):
        """A line for each crate, at the end: the seconds of its proof, its tests and its edits, and after how many minutes it and they were proved."""
        for name in sorted({*crates, *self.kept, *(crate for crate, _ in self.proved)}):
            took = crates.get(name, {})
            parts = []
            for kind in ("proof", "tests"):
                at = self.proved.get((name, kind))
                parts.append(f"{kind} {took.get(kind, 0):.0f} s to {f'{at:.1f}' if at is not None else '-'} min")
            kept = ", kept" if name in self.kept else ""
            TOLD.append(f"crate {name}: {', '.join(parts)}, edits {took.get('edits', 0):.0f} s, memory {took.get('memory', 0) / 1e9:.1f} GB{kept}")

    def count(self):
        return steps.count_of("\n".join(self.said))

    def failures(self):
        told = FAILED.search(self.said[-1]) if self.said else None
        return max(1, int(told[1]) if told else 0)


def main():
    sys.stdout.reconfigure(errors="replace")
    os.environ["PATH"] += f"{os.pathsep}{Path.home() / '.cargo/bin'}"
    begun, passed, failed, left_out = time.monotonic(), 0, 0, []
    tell_of_machine()
    log = tempfile.NamedTemporaryFile("w", prefix="gate-", suffix=".log", encoding="utf-8")
    for words in steps.steps("gate"):
        step = Step([log.name if word == "LOG" else word for word in words])
        status = step.run()
        if words == ["rt", "ci"]:
            log.write("\n".join([*step.said, ""]))
            log.flush()
        left_out += steps.left_out("\n".join(step.said))
        if status:
            failed = step.failures()
            passed += step.count() if FAILED.search(step.said[-1] if step.said else "") else 0
            say(f"{step.name} failed with status {status}, and what is behind it was not run")
            break
        passed += step.count()
    for text in TOLD:
        say(text)
    say(f"all: {time.monotonic() - begun:.1f} s by the clock, {processor_seconds():.1f} s of processor time")
    print("\n".join([*left_out, f"{passed} passed, {failed} failed"]), flush=True)
    return 1 if failed else 0


if __name__ == "__main__":
    sys.exit(main())
