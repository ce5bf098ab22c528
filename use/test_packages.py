#!/usr/bin/env python3
"""Runs packages.py, c/test/run and hardware/run where programs are missing: in a PATH of a folder of its own, and an apt-get of its own."""

import os
import shutil
import subprocess
import sys
import tempfile
from pathlib import Path

HERE = Path(__file__).resolve().parent
ROOT = HERE.parent
sys.path.insert(0, str(HERE))

import packages  # noqa: E402

REQUIRED = ["python3", "git", "gcc", "g++", "cargo"]
SHELL = ["sh", "dirname", "ls", "ln", "test"]
BAD_FILES = {
    "line 1 of packages.txt isn't": "gcc | required | gcc",
    "line 2 of packages.txt isn't": "# one\ngcc | wanted | gcc | C",
    "line 3 of packages.txt isn't": "gcc | required | gcc | C\n\ngcc | optional | gcc | C",
}


class Place:
    """A PATH with some programs, where what is called is only shown."""

    def __init__(self, room, *programs):
        self.folder = Path(tempfile.mkdtemp(dir=room))
        for program in programs:
            found = shutil.which(program)
            (self.folder / program).symlink_to(found if found and program in SHELL else "/bin/true")
        (self.folder / "python3").unlink(missing_ok=True)
        (self.folder / "python3").symlink_to(sys.executable)

    def apt_get(self, text):
        script = self.folder / "apt-get"
        script.write_text(f"#!/bin/sh\necho \"$*\" >>{self.folder}/called\n{text}\n", encoding="utf-8")
        script.chmod(0o755)
        return self

    def called(self):
        file = self.folder / "called"
        return file.read_text(encoding="utf-8") if file.exists() else ""

    def run(self, *words, **variables):
        kept = {name: value for name, value in os.environ.items() if name not in ("CI", "CC", packages.WITHOUT)}
        env = {**kept, "PATH": str(self.folder), **variables}
        done = subprocess.run(words, env=env, cwd=ROOT, capture_output=True, text=True, check=False)
        return done.returncode, done.stdout + done.stderr

    def look(self, *words, **variables):
        return self.run(sys.executable, "-B", str(HERE / "packages.py"), *words, **variables)


class Tests:
    def __init__(self):
        self.passed = self.failed = 0

    def holds(self, what, does, shown=""):
        self.passed += bool(does)
        self.failed += not does
        if not does:
            print(f"test_packages: not so: {what}\n{shown}")


def of_lists(tests, room):
    done = Place(room, *REQUIRED).look()
    tests.holds("all that is required is here", done[0] == 0 and "0 of the missing are required" in done[1], done)
    tests.holds("what is optional is listed", "not run: nasm is missing, which is optional" in done[1], done)
    tests.holds("an optional package that is here isn't", "not run: nasm" not in Place(room, *REQUIRED, "nasm").look()[1])
    place = Place(room, "git", "gcc", "cargo")
    done = place.look()
    tests.holds("a missing one is told", done[0] == 1 and "apt-get install g++" in done[1] and "HUQMERIS_WITHOUT=g++" in done[1], done)
    done = place.look(HUQMERIS_WITHOUT="g++")
    tests.holds("on purpose", done[0] == 0 and "not run: what needs g++, which HUQMERIS_WITHOUT leaves out" in done[1], done)
    done = place.look(HUQMERIS_WITHOUT="ghc")
    tests.holds("an optional one isn't left out so", done[0] == 2 and "names ghc" in done[1], done)
    done = place.look("need", "c/test/run", "gcc", "g++")
    tests.holds("what a script needs", done[0] == 1 and "c/test/run: g++ is missing" in done[1], done)
    done = place.look("need", "c/test/run", "gcc", "g++", HUQMERIS_WITHOUT="cargo g++")
    tests.holds("what a script may leave out", done == (0, "g++\n"), done)
    done = place.look("need", "c/test/run", "nasm")
    tests.holds("a script needs no optional one", done[0] == 2, done)
    tests.holds("other words", place.look("--all")[0] == 2)


def of_install(tests, room):
    place = Place(room, "git", "gcc", "g++").apt_get("")
    tests.holds("nothing is installed where CI isn't set", place.look("--install")[0] == 1 and not place.called(), place.called())
    tests.holds("nor where nobody asks", place.look(CI="1")[0] == 1 and not place.called(), place.called())
    if os.geteuid():
        return
    done = place.look("--install", CI="1")
    tests.holds("an install that changes nothing", done[0] == 1 and "cargo is missing" in done[1], done)
    installed = [line for line in place.called().splitlines() if " install " in line]
    tests.holds("the required ones first", len(installed) == 2 and installed[0].endswith(" cargo") and " nasm" in installed[1], installed)
    place = Place(room, "git", "gcc", "g++").apt_get("echo no network >&2; exit 100")
    done = place.look("--install", CI="1")
    tests.holds("an install that fails", done[0] == 1 and "no network" in done[1] and "cargo is missing" in done[1], done)
    place = Place(room, "git", "gcc", "g++")
    place.apt_get(f'case "$*" in *install*cargo) /bin/ln -s /bin/true {place.folder}/cargo ;; esac')
    tests.holds("an install that works", place.look("--install", CI="1")[0] == 0)


def of_scripts(tests, room):
    place = Place(room, *REQUIRED[:-1], *SHELL)
    done = place.run("c/test/run")
    tests.holds("C without cargo", done[0] == 1 and "c/test/run: cargo is missing" in done[1], done)
    done = place.run("c/test/run", HUQMERIS_WITHOUT="gcc")
    tests.holds("C without gcc, but with no cargo", done[0] == 1 and "cargo is missing" in done[1], done)
    done = place.run("c/test/run", HUQMERIS_WITHOUT="gcc cargo")
    tests.holds("C without gcc on purpose", done == (0, "not run: c/test/run, which needs gcc\nc/test/run: 0 passed, 0 failed\n"), done)
    place = Place(room)
    done = place.run(sys.executable, "-B", "hardware/run")
    tests.holds("the processor without a compiler", done[0] == 1 and "HUQMERIS_WITHOUT=gcc" in done[1], done)
    done = place.run(sys.executable, "-B", "hardware/run", HUQMERIS_WITHOUT="gcc")
    tests.holds("the processor, left out", done[0] == 0 and done[1].startswith("not run: hardware/run"), done)


def of_files(tests):
    for wanted, text in BAD_FILES.items():
        try:
            said = str(packages.packages(text))
        except packages.Refused as refused:
            said = str(refused)
        tests.holds(wanted, said.startswith(wanted), said)


def main():
    tests = Tests()
    with tempfile.TemporaryDirectory(prefix="packages-") as room:
        of_lists(tests, room)
        of_install(tests, room)
        of_scripts(tests, room)
        of_files(tests)
    print(f"test_packages: {tests.passed} passed, {tests.failed} failed")
    return 1 if tests.failed else 0


if __name__ == "__main__":
    sys.exit(main())
