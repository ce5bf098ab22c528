#!/usr/bin/env python3
"""Holds the crates to their sections: crates.txt, and the drawing and the table of docs/ARCHITECTURE.md.

In crates.txt a line `# == NAME: on SECTIONS ==` begins a section, and names those on whose crates its own may stand beside
each other; `# == NAME ==` one that stands on no other. Each crate stands in one of them. A crate's name begins with `x64_` where it
belongs to the core, the layouts or C, and with `cax64_` where the port stands on it, save those that this script names. The
drawing has the sections from the last to the first, and in each the crates, none above one that stands on it; and the table has a
row for each crate.

Run at the top: python3 docs/house.py. The status is 0 where that holds, and 1 where it doesn't: then a sentence says what is
otherwise.
"""
import re
import sys
from pathlib import Path

ROOT = Path(__file__).resolve().parent.parent
PAGE = ROOT / "docs/ARCHITECTURE.md"
HEADING = re.compile(r"# == (\w+)(?:: on ((?:\w+ ?)+))? ==$")
# A crate that stands on one of a section that isn't named, and why.
EXCEPTIONS = {
    ("vectors", "cax64_test_support"): "its sinks that refuse calls are compared with cases from outside",
    ("layout_vectors", "cax64_test_support"): "its instruction of a user's own fills what stands between jumps",
}
# The sections whose crates' names begin so, and the crates of another name, and why.
BEGINS = {"definitions": "cax64_", "core": "x64_", "layout": "x64_", "C": "x64_"}
NAMED_OTHERWISE = {
    "huqmeris": "a facade",
    "huqmeris_c": "a facade",
}


class Section:
    """A section of crates.txt: those on whose crates its own may stand, and its crates, each with those that it stands on."""

    def __init__(self, on):
        self.on, self.crates = on, {}


def sections(text):
    """The sections by name, in their order; what stands before the first is of a section without a name."""
    found = {"": Section([])}
    name = ""
    for line in text.splitlines():
        heading = HEADING.match(line)
        if heading:
            name = heading[1]
            if name in found:
                raise SystemExit(f"house: crates.txt has two sections {name}")
            found[name] = Section((heading[2] or "").split())
        crate, _, below = line.split("#")[0].partition(":")
        if crate.strip():
            found[name].crates[crate.split()[0]] = below.split()
    return found


def misplaced(found):
    """What stands in no section or in two, and what stands on a crate of a section that isn't named."""
    of = {}
    for name, section in found.items():
        yield from (f"the section {name} stands on {on}, which isn't a section before it" for on in section.on
                    if on not in list(found)[:list(found).index(name)])
        for crate in section.crates:
            if not name:
                yield f"{crate} stands in no section"
            if crate in of:
                yield f"{crate} stands in {of[crate]} and in {name}"
            of[crate] = name
    for name, section in found.items():
        for crate, below in section.crates.items():
            for other in below:
                if of.get(other) not in (name, *section.on) and (crate, other) not in EXCEPTIONS:
                    yield f"{crate} stands on {other}, and the section {name} isn't on {of.get(other, 'any that has it')}"


def misnamed(found):
    for name, start in BEGINS.items():
        for crate in found[name].crates if name in found else ():
            if not crate.startswith(start) and crate not in NAMED_OTHERWISE:
                yield f"{crate} of the section {name} doesn't begin with {start}"


def named(text):
    return set(re.findall(r"`(\w+)`", text))


def drawn(text):
    """The lines of the drawing, each with its section and its crates: the section begins in the first column."""
    drawing = re.search(r"^```\n(.*?)^```$", text, re.M | re.S)
    lines, section = [], ""
    for line in drawing[1].splitlines() if drawing else ():
        words = re.split(r"  +", line)
        section = words[0] or section
        lines.append((section, words[1].split() if len(words) > 1 else []))
    return lines


def misdrawn(lines, found):
    order = list(dict.fromkeys(section for section, _ in lines))
    if order != list(found)[:0:-1]:
        yield f"the drawing has the sections {', '.join(order)}, and crates.txt {', '.join(list(found)[:0:-1])}"
    height = {}
    for number, (section, crates) in enumerate(lines):
        for crate in crates:
            if crate in height:
                yield f"{crate} is drawn twice"
            height[crate] = number
            if section not in found or crate not in found[section].crates:
                yield f"{crate} is drawn in {section}, and doesn't stand there in crates.txt"
    for name, section in found.items():
        for crate, below in section.crates.items():
            if crate not in height:
                yield f"{crate} isn't drawn"
                continue
            for other in below:
                if height[crate] >= height.get(other, len(lines)) and (crate, other) not in EXCEPTIONS:
                    yield f"{crate} stands on {other}, which isn't drawn below it"


def differences(page, crates):
    found = sections(crates)
    yield from misplaced(found)
    yield from misnamed(found)
    yield from misdrawn(drawn(page), found)
    rows = set().union(*(named(row) for row in re.findall(r"(?m)^\| ([^|]*) \|", page)))
    for section in found.values():
        for crate in section.crates:
            if crate not in rows:
                yield f"no row of the table has {crate}"


def main():
    found = list(differences(PAGE.read_text(encoding="utf-8"), (ROOT / "crates.txt").read_text(encoding="utf-8")))
    print("\n".join([*found, f"house: {len(found)} differ"]))
    return 1 if found else 0


if __name__ == "__main__":
    sys.exit(main())
