#!/usr/bin/env python3
"""Writes the sources that follow from table/instructions.txt, table/core.txt and table/effects.txt, or with --check tells which
ones differ.

All that is to be written is made and judged before the first file is touched, and each file is then replaced at once. The
status is 0 where all is as it has to be, 1 where --check found a difference, and 2 where a line of a table can't be, a
part has no place, or a file can't be read or written: then nothing is written.
"""

import sys
from pathlib import Path

import core_files
import core_reader
import core_text
import enumeration
import facade
import parts
import rows
import signatures
import structs
import texts
from core_lines import CORE, CoreGroup, core_of
from effects import EFFECTS, uses_of
from judging import table_of
from parts import TABLE

ROOT = Path(__file__).resolve().parent.parent


def complain(sentence):
    print(sentence, file=sys.stderr)


def refuse(table, line, name, sentence):
    complain(f"{table}:{line}: {name}: {sentence}" if line else f"{table}: {name}: {sentence}")


def sources_of(table, core, uses):
    """All files and parts that the tables give."""
    sources = parts.Sources()
    structs.write(table, sources)
    rows.write(table, sources)
    enumeration.write(table, sources)
    texts.write(table, sources)
    signatures.write(table, sources)
    facade.write(table, sources)
    core_files.write(table, core, uses, sources)
    core_reader.write(table, core, sources)
    core_text.write(table, core, sources)
    return sources


def wanted():
    """The text of each file, and the files that have to go; None where something can't be."""
    try:
        table, sentences = table_of(ROOT, parts.text_of(ROOT, TABLE))
        for sentence in sentences:
            refuse(TABLE, *sentence)
        if sentences:
            return None
        core, sentences = core_of(parts.text_of(ROOT, CORE), table.rows)
        for sentence in sentences:
            refuse(CORE, *sentence)
        if sentences:
            return None
        uses, sentences = uses_of(parts.text_of(ROOT, EFFECTS), [*table.rows, *core.lines])
        for sentence in sentences:
            refuse(EFFECTS, *sentence)
        if sentences:
            return None
        sources = sources_of(table, core, uses)
        return parts.texts(ROOT, sources), list(parts.left_over(ROOT, sources, (TABLE, CORE)))
    except core_reader.Unplaced as unplaced:
        line = unplaced.line
        refuse(CORE if isinstance(line.group, CoreGroup) else TABLE, line.line, line.name, unplaced)
    except parts.Misplaced as misplaced:
        complain(misplaced)
    return None


def check(found, left):
    """Tells of each file that isn't as the table gives it."""
    differences = 0
    for path, text in sorted(found.items()):
        stands = parts.current(ROOT, path)
        if stands != text:
            complain(f"{path}:{parts.first_difference(stands, text)}: this isn't what the tables give")
            differences += 1
    for path in left:
        complain(f"{path}: the tables don't give this file any more")
    print(f"write: {len(found)} files, {differences + len(left)} of them not as the tables give them")
    return 1 if differences or left else 0


def write(found, left):
    changed = parts.written(ROOT, found, left)
    print(f"write: {len(found)} files, {changed} changed, {len(left)} removed")
    return 0


def main(words):
    if words not in ([], ["--check"]):
        complain(__doc__)
        return 2
    try:
        found = wanted()
        if found is None:
            return 2
        return check(*found) if words else write(*found)
    except parts.Unusable as unusable:
        complain(unusable)
        return 2


if __name__ == "__main__":
    sys.exit(main(sys.argv[1:]))
