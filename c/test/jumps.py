#!/usr/bin/env python3
"""Writes jumps.h: the bytes that GNU as makes of each jump that an item may be, near and far; or with --check tells whether they differ.

The jumps are those of abi.txt whose names are HQ_ITEM_CALL or begin with HQ_ITEM_J, and each name's end is as' mnemonic. Near, the
jump leads to its own first byte, and far over GAP bytes behind it.

The status is 0 where all is as it has to be, 1 where --check found a difference, and 2 where as or objcopy isn't there,
or refuses a jump.
"""

import re
import subprocess
import sys
import tempfile
from pathlib import Path

HERE = Path(__file__).resolve().parent
ABI = HERE.parent / "abi.txt"
WRITTEN = HERE / "jumps.h"
GAP = 200
ITEM = re.compile(r"^HQ_ITEM_(CALL|J[A-Z]+) = (\d+)$", re.MULTILINE)


class Refused(Exception):
    pass


def kinds():
    """The ends of the names, by the numbers of the kinds."""
    return [name for name, _ in sorted(ITEM.findall(ABI.read_text(encoding="utf-8")), key=lambda item: int(item[1]))]


def run(*words):
    """A tool of binutils has to be there and to be content."""
    try:
        ran = subprocess.run(words, capture_output=True, text=True, check=False)
    except FileNotFoundError:
        raise Refused(f"there is no {words[0]} (Debian: binutils)") from None
    if ran.returncode:
        raise Refused(f"{words[0]}: {ran.stderr.strip()}")


def assembled(text):
    """The bytes of code that as makes."""
    with tempfile.TemporaryDirectory() as folder:
        source, made, code = (Path(folder, name) for name in ("x.s", "x.o", "x.bin"))
        source.write_text(text, encoding="utf-8")
        run("as", "--64", "-o", made, source)
        run("objcopy", "-O", "binary", "-j", ".text", made, code)
        return code.read_bytes()


def row_of(name):
    mnemonic = name.lower()
    near = assembled(f"0: {mnemonic} 0b\n")
    far = assembled(f"{mnemonic} 0f\n.skip {GAP}, 0xc3\n0:\n")[:-GAP]
    words = ", ".join(f'"{"".join(f"{chr(92)}x{byte:02x}" for byte in code)}", {len(code)}' for code in (near, far))
    return f"    JUMP({name}, {words})"


def wanted():
    names = kinds()
    if not names:
        raise Refused("abi.txt has no jumps")
    rows = " \\\n".join(map(row_of, names))
    return f"""\
/* Written by c/test/jumps.py: what GNU as makes of each jump to its own first byte, and of each over GAP bytes behind it. */
#ifndef JUMPS_H
#define JUMPS_H

enum {{ GAP = {GAP} }};

#define JUMPS(JUMP) \\
{rows}

#endif
"""


def main(words):
    if words not in ([], ["--check"]):
        print("jumps.py [--check]", file=sys.stderr)
        return 2
    try:
        text = wanted()
    except Refused as refused:
        print(f"jumps.py: {refused}", file=sys.stderr)
        return 2
    if words:
        same = WRITTEN.exists() and WRITTEN.read_text(encoding="utf-8") == text
        print(f"jumps.py: {len(kinds())} jumps, {'as written' if same else 'jumps.h is otherwise'}")
        return 0 if same else 1
    WRITTEN.write_text(text, encoding="utf-8")
    print(f"jumps.py: {len(kinds())} jumps written")
    return 0


if __name__ == "__main__":
    sys.exit(main(sys.argv[1:]))
