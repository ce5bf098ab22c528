#!/usr/bin/env python3
"""Builds the archive, out/libhuqmeris.a, and beside it the one that Rattle's own compiler makes, out/libhuqmeris_rattle.a. Each
has heap.c as a second member, which a program with three functions of its own leaves out; and writes out/huqmeris.pc.

usage: c/build.py

It takes the libraries below as `rt ci`, `rt check` or an earlier run left them in crates/NAME/out/rlib, and has those that aren't
there proved first, by `rt lib`, which takes some half an hour of processor time from nothing. Then it proves the crate of the exports
over them, in a few minutes, and compiles what was proved twice. It says what is under way, and at the end how long it took.

The status is 0 where both are built, 1 where something isn't proved, and 2 where there is no toolchain, or a library below isn't there
in a run of another script that takes what is there.
"""

import os
import re
import shutil
import subprocess
import sys
import tempfile
import time
from pathlib import Path

HERE = Path(__file__).resolve().parent
ROOT = HERE.parent
NAME = "huqmeris_c"
FOLDER = ROOT / "crates" / NAME
OUT = HERE / "out"
ROW = re.compile(r"^([\w-]+)(?: +staticlib)? *:([\w\s-]*)$")


def kit():
    found = shutil.which("rt")
    return Path(found).resolve().parent.parent if found else None


def used():
    """Which crates each crate stands on."""
    rows = (ROW.match(line) for line in (ROOT / "crates.txt").read_text(encoding="utf-8").splitlines())
    return {row[1]: row[2].split() for row in rows if row}


def below(direct):
    """These crates and those that they stand on, each behind those that it stands on."""
    uses, found = used(), []

    def add(name):
        for lower in uses[name]:
            add(lower)
        if name not in found:
            found.append(name)

    for name in direct:
        add(name)
    return found


def library(name):
    return ROOT / "crates" / name / "out/rlib" / f"{name}.rlib"


def words_for(at, crate, direct):
    """What `rt` gives to rattle for a static library over these crates."""
    words = ["--crate-name", crate, "src/lib.rt", "--extern", f"std={at}/rlibs/std.rlib", "-L", f"dependency={at}/rlibs"]
    for name in direct:
        words += ["--extern", f"{name}={library(name)}"]
    for name in below(direct):
        words += ["-L", f"dependency={library(name).parent}"]
    return [*words, "--antt-project", f"{at}/rattle/logic/antt-project.json", "--links", f"{crate}=", "--crate-type", "staticlib"]


def run(at, verb, words, folder):
    ran = subprocess.run([at / "bin/rattle", verb, *words], cwd=folder, stdout=subprocess.PIPE, stderr=subprocess.STDOUT, text=True, errors="replace", check=False)
    last = ran.stdout.strip().splitlines()[-1:] or [""]
    print(f"{Path(sys.argv[0]).name}: {verb}: {last[0]}" if not ran.returncode else ran.stdout)
    return ran.returncode


def build(crate, folder, direct, archives):
    """Proves the static library in a folder over these crates, and compiles what was proved by each of some compilers."""
    at, script = kit(), Path(sys.argv[0]).name
    if not at:
        print(f"{script}: there is no rt in PATH", file=sys.stderr)
        return 2
    names = lacking(direct)
    if names:
        print(f"{script}: {names[0]} isn't built: c/build.py or rt ci does it", file=sys.stderr)
        return 2
    words = words_for(at, crate, direct)
    with tempfile.TemporaryDirectory() as room:
        checked = os.path.join(room, "checked")
        if run(at, "check", [*words, "--logic-built", f"{at}/logic_built", "--jobs", "1", "-o", checked], folder):
            return 1
        for backend, archive in archives:
            if run(at, "build", [*words, "--crate-checked", checked, "--toolchain", f"{at}/toolchain", "--backend", backend, "-o", archive], folder):
                return 1
    return 0


def lacking(direct):
    """The libraries below these crates, and these, that aren't there."""
    return [name for name in below(direct) if not library(name).exists()]


def prove_below(direct):
    """Has the libraries proved that aren't there, each behind those that it stands on, and gives the status."""
    names, script = lacking(direct), Path(sys.argv[0]).name
    if names:
        print(f"{script}: {len(names)} libraries below are proved first: all of them take some half an hour of processor time", flush=True)
    for number, name in enumerate(names, 1):
        begun = time.monotonic()
        done = subprocess.run(["rt", "lib"], cwd=ROOT / "crates" / name, stdout=subprocess.PIPE, stderr=subprocess.STDOUT, text=True, errors="replace", check=False)
        if done.returncode or not library(name).exists():
            print(f"{done.stdout}{script}: {name} isn't proved", file=sys.stderr)
            return 1
        print(f"{script}: {number} of {len(names)}: {name} is proved: {time.monotonic() - begun:.0f} seconds", flush=True)
    return 0


def with_heap(archives):
    """Adds heap.c to archives, as a member of its own."""
    compiler, status = os.environ.get("CC", "cc"), 0
    with tempfile.TemporaryDirectory() as room:
        heap = os.path.join(room, "heap.o")
        if subprocess.run([compiler, "-std=c99", "-O2", "-fPIC", "-c", HERE / "heap.c", "-o", heap], check=False).returncode:
            return 1
        for archive in archives:
            word = [f"{kit()}/toolchain/bin/llvm-ar", "rs", archive, heap]
            status |= subprocess.run(word, stdout=subprocess.DEVNULL, stderr=subprocess.DEVNULL, check=False).returncode
    return status


def write_pc(out):
    """For pkg-config: where the header and the archive lie."""
    text = (HERE / "huqmeris.pc.in").read_text(encoding="utf-8")
    version = re.search(r"HQ_VERSION: u32 = (\d+);", (FOLDER / "src/version.rt").read_text(encoding="utf-8"))[1]
    (out / "huqmeris.pc").write_text(text.replace("@include@", str(HERE)).replace("@lib@", str(out)).replace("@version@", version), encoding="utf-8")


def main(words):
    if words:
        print(__doc__, file=sys.stderr)
        return 2
    if not kit():
        print("build.py: there is no rt in PATH", file=sys.stderr)
        return 2
    begun, direct = time.monotonic(), used()[NAME]
    OUT.mkdir(exist_ok=True)
    archives = [str(OUT / "libhuqmeris.a"), str(OUT / "libhuqmeris_rattle.a")]
    status = prove_below(direct)
    if not status:
        print(f"build.py: {NAME} is proved, and compiled twice: that takes a few minutes", flush=True)
        status = build(NAME, FOLDER, direct, zip(("llvm", "rattle"), archives))
    if status:
        return status
    if with_heap(archives):
        print("build.py: heap.c isn't added", file=sys.stderr)
        return 1
    write_pc(OUT)
    print(f"build.py: {' and '.join(str(Path(it).relative_to(ROOT)) for it in archives)} are built: {time.monotonic() - begun:.0f} seconds")
    return 0


if __name__ == "__main__":
    sys.exit(main(sys.argv[1:]))
