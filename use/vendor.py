#!/usr/bin/env python3
"""Copies the library into a repository of your own.

usage: use/vendor.py DEST [CRATE..]     CRATE: cranelift_assembler_x64 if none is named

It copies each crate that CRATE stands on, and CRATE, to DEST/crates: sources, definitions and proofs, and no tests, edits or
results of checks; LICENSE and NOTICE go to DEST/licenses/huqmeris. In DEST/crates.txt it completes what is missing. What
stands there already has to be the same: where a file, one of these two, or a line of crates.txt differs, it says which and copies
nothing. The status is 0, or 2 where something was refused.
"""

import subprocess
import sys
from pathlib import Path
from typing import NamedTuple

ROOT = Path(__file__).resolve().parent.parent
FACADE = "cranelift_assembler_x64"
PARTS = ("src", "specs", "proofs")
LEGAL = ("LICENSE", "NOTICE")
HEAD = "# A line for each crate: its name, and the crates that it stands on.\n"


class Refused(Exception):
    """Why nothing is copied."""


class Crate(NamedTuple):
    """A line of crates.txt: words behind the name, as `staticlib`, and what the crate stands on."""

    words: list
    below: list

    def line(self, name):
        return f"{' '.join([name, *self.words])}: {' '.join(self.below)}".rstrip()


def listed(text):
    """The crates of a crates.txt, in their order."""
    found = {}
    for line in text.splitlines():
        head, colon, below = line.split("#")[0].partition(":")
        if colon and head.strip():
            name, *words = head.split()
            found[name] = Crate(words, below.split())
    return found


def below(crates, name, found):
    """Puts a crate behind all that it stands on."""
    if name not in found:
        for other in crates[name].below:
            if other in crates:
                below(crates, other, found)
        found.append(name)
    return found


def wanted(names):
    crates = listed((ROOT / "crates.txt").read_text(encoding="utf-8"))
    found = []
    for name in names:
        if name not in crates:
            raise Refused(f"{name} is no crate of this library: there are {', '.join(crates)}")
        below(crates, name, found)
    return {name: crates[name] for name in found}


def files_of(name):
    folder = ROOT / "crates" / name
    for part in PARTS:
        for file in sorted((folder / part).rglob("*")):
            if file.is_file():
                yield file


def is_missing(file, to):
    """Whether a file isn't there yet. One that differs is refused."""
    if to.exists() and to.read_bytes() != file.read_bytes():
        raise Refused(f"{to} is there, and differs")
    return not to.exists()


def to_copy(destination, crates):
    """The files that aren't there yet, and the crates that crates.txt lacks."""
    files, found = [], destination / "crates.txt"
    stands = listed(found.read_text(encoding="utf-8")) if found.exists() else {}
    for name, crate in crates.items():
        if name in stands and stands[name] != crate:
            raise Refused(f"{found} has another line of {name}: {stands[name].line(name)}")
        copies = [(file, destination / file.relative_to(ROOT)) for file in files_of(name)]
        files += [pair for pair in copies if is_missing(*pair)]
        ours = {file.relative_to(ROOT) for file in files_of(name)}
        for part in PARTS:
            for other in sorted((destination / "crates" / name / part).rglob("*")):
                if other.is_file() and other.relative_to(destination) not in ours:
                    raise Refused(f"{other} is there, and {name} has no such file")
    return files, [name for name in crates if name not in stands]


def commit():
    """The commit that is copied, and whether something was changed since."""
    def git(*words):
        done = subprocess.run(["git", "-C", ROOT, *words], capture_output=True, text=True, check=False)
        return done.stdout.strip() if done.returncode == 0 else None
    name = git("rev-parse", "HEAD")
    if name is None:
        return "no commit: this is no checkout"
    return f"commit {name}" + (", with changes" if git("status", "--porcelain", "--", "crates") else "")


def copy(destination, names):
    crates = wanted(names)
    files, missing = to_copy(destination, crates)
    legal = [(ROOT / name, destination / "licenses/huqmeris" / name) for name in LEGAL]
    for file, to in files + [pair for pair in legal if is_missing(*pair)]:
        to.parent.mkdir(parents=True, exist_ok=True)
        to.write_bytes(file.read_bytes())
    found = destination / "crates.txt"
    text = found.read_text(encoding="utf-8") if found.exists() else HEAD
    text += "" if text.endswith("\n") else "\n"
    found.write_text(text + "".join(f"{crates[name].line(name)}\n" for name in missing), encoding="utf-8")
    lines = sum(file.read_bytes().count(b"\n") for name in crates for file in files_of(name))
    print(f"vendor: {len(crates)} crates of {lines} lines, {len(files)} of their files copied, of {commit()}")


def main(words):
    if not words or words[0].startswith("-"):
        print(__doc__, file=sys.stderr)
        return 2
    try:
        copy(Path(words[0]), words[1:] or [FACADE])
    except (Refused, OSError) as refused:
        print(f"vendor: nothing was copied: {refused}" if isinstance(refused, Refused) else f"vendor: {refused}", file=sys.stderr)
        return 2
    return 0


if __name__ == "__main__":
    sys.exit(main(sys.argv[1:]))
