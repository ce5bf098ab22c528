#!/usr/bin/env python3
"""Runs tracked.py in checkouts of its own, each of one file that has to be refused or taken."""

import subprocess
import sys
import tempfile
from pathlib import Path

HERE = Path(__file__).resolve().parent
SCRIPT = HERE / "tracked.py"
LARGE = b"1\t2\n" * 300_000
PROGRAM = Path(sys.executable).resolve().read_bytes()[:64]


def under(*parts):
    """A path from a machine's root, put together here since this file is tracked too."""
    return "/" + "/".join(parts)


# A file, what stands in it, and a word of the sentence that it gets; none where it's taken.
CASES = (
    ("c/rust/target/debug/x.d", b"x: y\n", "it's in target/"),
    ("crates/nop/out/log", b"proved\n", "it's in out/"),
    ("use/__pycache__/x.txt", b"x\n", "it's in __pycache__/"),
    ("c/loop", PROGRAM, "an object, an archive or a program"),
    ("c/lib.a", b"!<arch>\n", "an object, an archive or a program"),
    ("c/renamed", b"!<arch>\n/", "an object, an archive or a program"),
    ("c/module", b"BC\xc0\xde\x35", "an object, an archive or a program"),
    ("c/empty.o", b"", "an object, an archive or a program"),
    ("docs/table.tsv", LARGE, "it has 1,200,000 bytes"),
    ("docs/PAGE.md", f"See {under('home', 'me', 'notes')}.\n".encode(), "line 1 names a folder of a machine"),
    ("c/x.d", f"a\nb\nx: {under('root', '.cargo')}\n".encode(), "line 3 names a folder of a machine"),
    ("use/x.py", f'AT = "{under("work", "main")}"\n'.encode(), "line 1 names a folder of a machine"),
    ("docs/URL.md", f"file://{under('home', 'me')}\n".encode(), "line 1 names a folder of a machine"),
    ("crates/vectors/data/large.tsv", LARGE, ""),
    ("crates/vectors/data/x.o", b"\x7fELF", ""),
    ("crates/vectors/stdout", LARGE, ""),
    ("c/test/data/x.a", b"!<arch>\n", ""),
    ("docs/small.tsv", LARGE[:1_000_000], ""),
    ("docs/OTHER.md", b"the folders out and target, crates/root/x, ../work/y, $DIR/home/z, and the path /tmp/w\n", ""),
    ("target", b"a file of this name\n", ""),
)


def git(folder, *words):
    subprocess.run(["git", "-C", folder, *words], check=True, capture_output=True)


def judged(folder):
    done = subprocess.run([sys.executable, "-B", SCRIPT, folder], capture_output=True, text=True, check=False)
    return done.returncode, done.stdout + done.stderr


def tried(room, number, path, data):
    """What is said of a checkout that tracks this one file."""
    folder = Path(room) / str(number)
    file = folder / path
    file.parent.mkdir(parents=True)
    file.write_bytes(data)
    git(folder, "init", "-q")
    git(folder, "add", "-f", path)
    return judged(folder)


def main():
    failed = []
    with tempfile.TemporaryDirectory(prefix="tracked-") as room:
        for number, (path, data, wanted) in enumerate(CASES):
            status, said = tried(room, number, path, data)
            if (status, wanted in said, said.count(path)) != ((1, True, 1) if wanted else (0, True, 0)):
                failed.append(f"{path}: status {status}: {said}")
        bare = Path(room) / "bare"
        bare.mkdir()
        (bare / "untracked.o").write_bytes(PROGRAM)
        status, said = judged(bare)
        if status != 2 or "is no checkout" not in said:
            failed.append(f"no checkout: status {status}: {said}")
        git(bare, "init", "-q")
        if judged(bare)[0] != 0:
            failed.append("a file that isn't tracked is refused")
    passed = len(CASES) + 2 - len(failed)
    print("\n".join([*(f"test_tracked: not so: {it}" for it in failed), f"test_tracked: {passed} passed, {len(failed)} failed"]))
    return 1 if failed else 0


if __name__ == "__main__":
    sys.exit(main())
