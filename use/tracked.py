#!/usr/bin/env python3
"""Refuses what doesn't belong into the repository: use/tracked.py [FOLDER]

Of the files that git tracks at FOLDER (this checkout if none is named) it tells

- one in a folder `target`, `out` or `__pycache__`, where tools leave what they make,
- an object, an archive or a program, told by its first bytes or its name's end,
- one of more than a megabyte,
- an absolute path of a home or work folder in a text: it leads nowhere on another machine.

What tests read, which is a file in a folder `data`, or `stdin` or `stdout` of a crate, may be large and may be an object. The status
is 0 where nothing is told, 1 where something is, and 2 where FOLDER is no checkout.
"""

import os
import re
import subprocess
import sys
from pathlib import Path, PurePosixPath

ROOT = Path(__file__).resolve().parent.parent
MADE = {"target", "out", "__pycache__"}
MOST = 1_000_000
# ELF, an archive, LLVM's bitcode, WebAssembly, Windows' and macOS' programs (both orders and widths, and several in one).
BEGINNINGS = (b"\x7fELF", b"!<arch>\n", b"BC\xc0\xde", b"\0asm", b"MZ", b"\xcf\xfa\xed\xfe", b"\xce\xfa\xed\xfe", b"\xca\xfe\xba\xbe")
ENDINGS = (".o", ".obj", ".a", ".so", ".dylib", ".dll", ".exe", ".lib", ".rlib", ".rmeta", ".pyc", ".class", ".wasm", ".bc")
# Behind a letter or a folder's name it is part of a longer path, which isn't absolute.
FOLDER_OF_A_MACHINE = re.compile(rb"(?<![\w.)}~*-])/(?:home|root|work|Users)/[\w.]")


def is_data(path):
    """Whether a file is what a test reads."""
    parts = PurePosixPath(path).parts
    return "data" in parts[:-1] or len(parts) == 3 and parts[0] == "crates" and parts[2] in ("stdin", "stdout")


def content(file):
    """The bytes of a file, or where a link leads."""
    return os.fsencode(os.readlink(file)) if file.is_symlink() else file.read_bytes()


def is_text(data):
    return b"\0" not in data[:8192]


def faults(path, data):
    """Why a file that git tracks doesn't belong here."""
    found = MADE.intersection(PurePosixPath(path).parts[:-1])
    if found:
        yield f"it's in {found.pop()}/, where a tool leaves what it makes"
    if not is_data(path):
        if data.startswith(BEGINNINGS) or path.endswith(ENDINGS):
            yield "it's an object, an archive or a program"
        if len(data) > MOST:
            yield f"it has {len(data):,} bytes, and what no test reads has {MOST:,} at most"
    if is_text(data):
        for number, line in enumerate(data.split(b"\n"), 1):
            named = FOLDER_OF_A_MACHINE.search(line)
            if named:
                yield f"line {number} names a folder of a machine: {line[named.start():named.start() + 40].decode(errors='replace')}"


def tracked(folder):
    """The files that git tracks, or None where it tracks none since this is no checkout."""
    done = subprocess.run(["git", "-C", folder, "ls-files", "-z"], capture_output=True, text=True, check=False)
    return [name for name in done.stdout.split("\0") if name] if done.returncode == 0 else None


def main(words):
    if len(words) > 1 or words[:1] in (["-h"], ["--help"]):
        print(__doc__, file=sys.stderr)
        return 2
    folder = Path(words[0]) if words else ROOT
    names = tracked(folder)
    if names is None:
        print(f"tracked: {folder} is no checkout", file=sys.stderr)
        return 2
    here = [(name, folder / name) for name in names if os.path.lexists(folder / name) and not (folder / name).is_dir()]
    told = [f"{name}: {why}" for name, file in here for why in faults(name, content(file))]
    print("\n".join([*told, f"tracked: {len(here)} files, {len(told)} faults"]))
    return 1 if told else 0


if __name__ == "__main__":
    sys.exit(main(sys.argv[1:]))
