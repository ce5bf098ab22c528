#!/usr/bin/env python3
"""Does what docs/USING.md says, in a folder of its own: copies the library, and runs the page's program unproved."""

import re
import subprocess
import sys
import tempfile
from pathlib import Path

HERE = Path(__file__).resolve().parent
PAGE = HERE.parent / "docs/USING.md"
CHANGED = "crates/nop/src/lib.rt"


def blocks(kind):
    """The blocks of the page that are marked so."""
    found, block, mark = [], None, ""
    for line in PAGE.read_text(encoding="utf-8").splitlines(keepends=True):
        if block is None and line.startswith("```"):
            block, mark = [], line[3:].strip()
        elif block is not None and line == "```\n":
            found += ["".join(block)] if mark == kind else []
            block = None
        elif block is not None:
            block.append(line)
    return found


def vendor(folder, *names):
    done = subprocess.run([sys.executable, "-B", HERE / "vendor.py", folder, *names], capture_output=True, text=True, check=False)
    return done.returncode, done.stdout, done.stderr


class Tests:
    def __init__(self):
        self.failed = 0
        self.passed = 0

    def holds(self, what, does, shown=""):
        self.passed += bool(does)
        self.failed += not does
        if not does:
            print(f"test_vendor: not so: {what}\n{shown}")

    def copies(self, folder):
        first, again, buffer = vendor(folder), vendor(folder), vendor(folder, "x64_code_buffer")
        self.holds("the library is copied", first[0] == 0 and re.match(r"vendor: \d+ crates of \d+ lines, \d\d+ of their files", first[1]), first)
        self.holds("once is enough", again[0] == 0 and " 0 of their files copied, of commit " in again[1], again)
        self.holds("another crate is added", buffer[0] == 0 and " 0 of" not in buffer[1], buffer)
        text = (folder / "crates.txt").read_text(encoding="utf-8")
        self.holds("each crate is listed once", len(set(text.splitlines())) == len(text.splitlines()), text)
        left = [path for path in folder.rglob("*") if path.name in ("must-fail", "out")]
        self.holds("no edits and no results are copied", not left, left)

    def copies_a_static_library(self, folder):
        done = vendor(folder, "huqmeris_c")
        here = folder / "crates/huqmeris_c"
        self.holds("a static library is copied", done[0] == 0 and (here / "src/lib.rt").exists() and (here / "proofs/Lib.antt").exists(), done)
        lines = (folder / "crates.txt").read_text(encoding="utf-8").splitlines()
        ours = [line for line in (HERE.parent / "crates.txt").read_text(encoding="utf-8").splitlines() if line.startswith("huqmeris_c ")]
        self.holds("its line says that it is one", ours and lines.count(ours[0]) == 1, lines)
        again = vendor(folder, "huqmeris_c")
        self.holds("once is enough for it too", again[0] == 0 and " 0 of their files copied" in again[1], again)
        (folder / "crates.txt").write_text("\n".join(line.replace("huqmeris_c staticlib:", "huqmeris_c:") for line in lines) + "\n", encoding="utf-8")
        done = vendor(folder, "huqmeris_c")
        self.holds("another line of it is refused", done[0] == 2 and "has another line of huqmeris_c" in done[2], done)
        (folder / "crates.txt").write_text("\n".join(lines) + "\n", encoding="utf-8")
        for words in ("huqmeris_c staticlib", "staticlib", ""):
            done = vendor(folder, words)
            self.holds(f"'{words}' is no crate", done[0] == 2 and " is no crate of this library" in done[2], done)

    def keeps_the_licence(self, folder):
        for name in ("LICENSE", "NOTICE"):
            file = folder / "licenses/huqmeris" / name
            before = file.read_bytes()
            file.write_bytes(before + b"and more\n")
            (folder / "crates/nop/src/lib.rt").unlink()
            done = vendor(folder)
            self.holds(f"a {name} that differs is refused", done[0] == 2 and f"{name} is there, and differs" in done[2], done)
            self.holds(f"a {name} that differs stays", file.read_bytes() == before + b"and more\n")
            self.holds("and nothing is copied", not (folder / "crates/nop/src/lib.rt").exists())
            file.write_bytes(before)
            vendor(folder)
            self.holds("the next call copies it", (folder / "crates/nop/src/lib.rt").exists())

    def refuses(self, folder):
        file = folder / CHANGED
        before = file.read_text(encoding="utf-8")
        file.write_text(before + "// changed\n", encoding="utf-8")
        done = vendor(folder)
        self.holds("what differs stays", done[0] == 2 and f"{CHANGED} is there, and differs" in done[2], done)
        self.holds("and isn't written over", file.read_text(encoding="utf-8").endswith("// changed\n"))
        file.write_text(before, encoding="utf-8")
        done = vendor(folder, "no_such")
        self.holds("a crate that isn't there", done[0] == 2 and "no_such is no crate" in done[2], done)

    def runs(self, folder):
        """The page's program prints what the page says."""
        app = folder / "crates/app/src/main.rt"
        app.parent.mkdir(parents=True)
        app.write_text(blocks("rattle")[0], encoding="utf-8")
        line, printed = blocks("")[1:3]
        with open(folder / "crates.txt", "a", encoding="utf-8") as file:
            file.write(line)
        done = subprocess.run(["rt", "try"], cwd=folder / "crates/app", capture_output=True, text=True, check=False)
        self.holds("the page's program runs", done.stdout.startswith(printed), done.stdout + done.stderr)


def main():
    tests = Tests()
    with tempfile.TemporaryDirectory(prefix="vendor-") as name:
        folder = Path(name)
        subprocess.check_call(["git", "init", "-q", folder])
        tests.copies(folder)
        tests.refuses(folder)
        tests.copies_a_static_library(folder)
        tests.keeps_the_licence(folder)
        tests.runs(folder)
    print(f"test_vendor: {tests.passed} passed" + (f", {tests.failed} failed" if tests.failed else ""))
    return 1 if tests.failed else 0


if __name__ == "__main__":
    sys.exit(main())
