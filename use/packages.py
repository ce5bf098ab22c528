#!/usr/bin/env python3
"""Tells which packages of use/packages.txt are missing.

usage: use/packages.py                       lists what is missing
       use/packages.py --install             installs it by apt-get where this is root and CI is set, and lists what is missing then
       use/packages.py need WHO PACKAGE..    whether WHO has these required packages: prints those that are left out on purpose

A required package that is missing is told in a sentence, and the status is 1. Who leaves it out on purpose names it in the variable
HUQMERIS_WITHOUT, in words with spaces between, as in HUQMERIS_WITHOUT="g++ cargo". `ptrace` may stand there too: it is what a machine
lets programs do, and no package, so hardware/run finds out whether it is there. What is left out, and each optional package that is
missing, has a line that begins with `not run: `. The status is 0 where no required package is missing, and 2 where the words or the
file aren't as they have to be.
"""

import os
import shutil
import subprocess
import sys
from pathlib import Path
from typing import NamedTuple

FILE = Path(__file__).resolve().parent / "packages.txt"
WITHOUT = "HUQMERIS_WITHOUT"
PTRACE = "ptrace"
SECONDS = 200


class Refused(Exception):
    """Why the words or the file aren't taken."""


class Package(NamedTuple):
    name: str
    is_required: bool
    shown_by: str
    used_for: str

    def is_here(self):
        return Path(self.shown_by).exists() if self.shown_by.startswith("/") else shutil.which(self.shown_by) is not None


def packages(text):
    """The packages of a file, by name."""
    found = {}
    for number, line in enumerate(text.splitlines(), 1):
        parts = [part.strip() for part in line.split("|")]
        if not line.strip() or line.startswith("#"):
            continue
        if len(parts) != 4 or not all(parts) or parts[1] not in ("required", "optional") or parts[0] in found:
            raise Refused(f"line {number} of packages.txt isn't: package | required or optional | what shows it | what for")
        found[parts[0]] = Package(parts[0], parts[1] == "required", *parts[2:])
    return found


def left_out(known):
    """The names of the variable, of which each has to be a required package or ptrace."""
    names = os.environ.get(WITHOUT, "").split()
    for name in names:
        if name != PTRACE and not (name in known and known[name].is_required):
            raise Refused(f"{WITHOUT} names {name}: it may name {', '.join(it.name for it in known.values() if it.is_required)} and {PTRACE}")
    return names


def sentence(who, name, used_for):
    return f"{who}: {name} is missing, for {used_for}: install it (apt-get install {name}), or leave it out on purpose by {WITHOUT}={name}"


def need(who, names, known):
    """Prints which of some required packages are left out; tells of the others that are missing."""
    lacking = [name for name in names if name not in known or not known[name].is_required]
    if lacking:
        raise Refused(f"{lacking[0]} is no required package of packages.txt")
    without = left_out(known)
    missing = [known[name] for name in names if name not in without and not known[name].is_here()]
    for it in missing:
        print(sentence(who, it.name, it.used_for), file=sys.stderr)
    if not missing:
        print(" ".join(name for name in names if name in without))
    return 1 if missing else 0


def apt_get(*words):
    """Runs apt-get, and tells where it fails."""
    fixed = ["apt-get", "-o", "Acquire::Retries=0", "-o", "Acquire::http::Timeout=20", "-o", "DPkg::Lock::Timeout=60"]
    env = {**os.environ, "DEBIAN_FRONTEND": "noninteractive"}
    try:
        done = subprocess.run([*fixed, *words], env=env, stdin=subprocess.DEVNULL, stdout=subprocess.PIPE, stderr=subprocess.STDOUT, text=True,
                              timeout=SECONDS, check=False)
        why = (done.stdout.strip().splitlines() or ["it says nothing"])[-1] if done.returncode else None
    except (OSError, subprocess.TimeoutExpired) as error:
        why = str(error)
    if why:
        print(f"packages: apt-get {' '.join(words)}: {why}", file=sys.stderr)


def install(missing):
    """Installs packages as far as that works here, the required ones first."""
    if missing:
        apt_get("update")
    for is_required in (True, False):
        names = [it.name for it in missing if it.is_required == is_required]
        if names:
            apt_get("install", "-y", "--no-install-recommends", *names)


def missing_of(known):
    without = left_out(known)
    return [it for it in known.values() if it.name not in without and not it.is_here()]


def look(known, installs):
    """Lists what is missing, after an attempt to install it where that is wanted."""
    if installs and os.geteuid() == 0 and os.environ.get("CI"):
        install(missing_of(known))
    for name in left_out(known):
        print(f"not run: what needs {name}, which {WITHOUT} leaves out")
    missing = missing_of(known)
    for it in missing:
        if it.is_required:
            print(sentence("packages", it.name, it.used_for), file=sys.stderr)
        else:
            print(f"not run: {it.name} is missing, which is optional: {it.used_for}")
    lacking = sum(it.is_required for it in missing)
    print(f"packages: {len(known) - len(missing)} of {len(known)} are here, {lacking} of the missing are required")
    return 1 if lacking else 0


def main(words):
    try:
        known = packages(FILE.read_text(encoding="utf-8"))
        if words[:1] == ["need"] and len(words) > 2:
            return need(words[1], words[2:], known)
        if words in ([], ["--install"]):
            return look(known, bool(words))
    except Refused as refused:
        print(f"packages: {refused}", file=sys.stderr)
        return 2
    print(__doc__, file=sys.stderr)
    return 2


if __name__ == "__main__":
    sys.exit(main(sys.argv[1:]))
