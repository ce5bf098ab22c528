#!/usr/bin/env python3
"""Writes near.tsv: strings near those that the lines of the core read, each with what three disassemblers say of it.

  near.py [SEED]    with GNU as, objdump, llvm-objdump and ZydisInfo on the path (Debian: binutils, llvm, zydis-tools)

The strings are those of near_strings.py, made of the bytes that assemblers gave (core.tsv) and the public crate
(instructions.tsv). A disassembler reads a string as a line where it reads the instruction, with the kinds and sizes of
operands, that it reads in bytes of that line. So the core has to read that line there, and so many bytes; nothing stands
where one of these reasons says why not:

  no line       an instruction, or a form of one, that the core hasn't
  prefix        66, F2, F3 or F0 stands there and changes nothing: the core reads no such prefix
  segment       2E, 36, 3E, 26, 64 or 65 stands there
  address       67 stands there
  rex           REX stands before another prefix, so that it counts for nothing, or before a line that has none
  vex           W or L of VEX is another than the line's, and counts for nothing
  digit         the processor takes another digit for the line's: 6 for 4 in shifts, 1 for 0 in `test`
  undefined     it is no instruction

Where the three differ, the processor of this machine says how many bytes there are (hardware/), and those that read as
many are believed. near.txt has the counts, with what each says where they differ, and lists what then still differs.
Nothing here asks the core.

The status is 0, 1 where the bytes of a line aren't read as that line by all three or a line has too few strings, and 2 where a
tool is missing.
"""

import random
import shutil
import sys
from collections import Counter, defaultdict
from pathlib import Path
from typing import NamedTuple, Optional

import near_readers
import near_strings
from near_strings import ADDRESS_SIZE, GROUPS, OPERAND_SIZE, SEGMENTS, is_rex, parts_of

HERE = Path(__file__).resolve().parent
ROOT = HERE.parents[2]
sys.path[:0] = [str(ROOT / "table"), str(ROOT / "hardware")]

import lengths  # noqa: E402
from reader import all_lines  # noqa: E402

SEED = 1
TOOLS = ("as", "objdump", "llvm-objdump", "ZydisInfo")
READ = "a line of the core"


class Line(NamedTuple):
    """A line of the core: its number, its name, what its prefixes are, and bytes of it."""

    number: int
    name: str
    code: object
    bases: list

    @property
    def opcode_bytes(self):
        """How many stand before the digit."""
        return 0 if self.code.digit is None or self.code.vex else len(self.code.opcode_bytes)


class Said(NamedTuple):
    """What a disassembler says: how many bytes, the line and why the core doesn't read it, if it doesn't."""

    length: Optional[int]
    line: Optional[int]
    reason: Optional[str]


def bases_of():
    """The bytes of each line."""
    found = defaultdict(list)
    for path, name, code in ((HERE / "core.tsv", 1, 5), (ROOT / "crates/vectors/data/instructions.tsv", 14, 3)):
        for text in path.read_text(encoding="utf-8").splitlines()[1:]:
            columns = text.split("\t")
            found[columns[name]].append(bytes.fromhex(columns[code]))
    return found


def lines_of():
    bases = bases_of()
    return [Line(number, line.name, line.code, bases[line.name]) for number, line in enumerate(all_lines())]


def reduced(string):
    """The string without each of the prefixes that may change nothing."""
    legacy = parts_of(string).legacy
    return [near_strings.without(string, at) for at, byte in enumerate(legacy) if byte in GROUPS]


def is_rex_lost(string, line):
    """Whether a REX byte stands before another prefix, or before a line that has none."""
    parts = parts_of(string)
    return any(map(is_rex, parts.legacy)) or parts.rex is not None and not line.code.may_have_rex


def is_vex_lost(string, line):
    """Whether VEX has another W or L than the line's, which its W1 or a name of L would tell."""
    vex = parts_of(string).vex
    if not vex:
        return False
    has_w, has_l = len(vex) == 3 and vex[2] >> 7, vex[-1] >> 2 & 1
    return line.code.w not in (None, has_w) or line.code.vex.l != has_l


def is_digit_lost(string, line):
    """Whether the string has another digit than the line it is read as."""
    return line.code.digit is not None and parts_of(string).rest[len(line.code.opcode_bytes)] >> 3 & 7 != line.code.digit


class Judge:
    """One disassembler's readings, and which line each of its instructions is, by the bytes of lines."""

    def __init__(self, name, reads, lines):
        self.name, self.reads, self.lines = name, reads, lines
        self.line_of = {}
        self.wrong = []
        for line in lines:
            for base in line.bases:
                self.learn(line, base)

    def key(self, line, string):
        """What tells lines apart. No-operations of one and of two bytes may be named alike."""
        has_size = not line.code.may_have_rex and OPERAND_SIZE in parts_of(string).legacy
        return line.code.opcode_in_map, self.reads[string].identity, has_size

    def learn(self, line, base):
        read = self.reads[base]
        if read is None or read.length != len(base) or self.line_of.setdefault(self.key(line, base), line.number) != line.number:
            self.wrong.append(f"{self.name}: {base.hex(' ')} of {line.name} is {read}")

    def is_ignored(self, origin, string):
        """Whether a prefix stands there without which all is read alike, as the same line."""
        whole = self.reads[string]
        shorter = [other for other in reduced(string) if self.reads[other]]
        return any(whole == self.reads[other]._replace(length=self.reads[other].length + 1) and
                   self.key(origin, string) == self.key(origin, other) for other in shorter)

    def said(self, origin, string):
        """Of a string made of one of a line, whose opcode it has."""
        read = self.reads[string]
        if read is None:
            return Said(None, None, "undefined")
        number = self.line_of.get(self.key(origin, string))
        return Said(read.length, number, self.reason(origin, string, number))

    def reason(self, origin, string, number):
        legacy = parts_of(string).legacy
        if any(byte in SEGMENTS for byte in legacy):
            return "segment"
        if ADDRESS_SIZE in legacy:
            return "address"
        if number is None:
            return "no line"
        line = self.lines[number]
        if is_rex_lost(string, line):
            return "rex"
        if self.is_ignored(origin, string):
            return "prefix"
        if is_digit_lost(string, line):
            return "digit"
        return "vex" if line.code.vex and is_vex_lost(string, line) else None


class Verdict(NamedTuple):
    """What the core has to read: a line, or nothing for a reason; and the length, where it is known."""

    line: Optional[int]
    reason: Optional[str]
    length: Optional[int]
    differs: bool = False


def judged(said, found):
    """All three, or those that read as many bytes as the processor does. `found` is how many these are, and whether it is an
    instruction; it is None where the three agree."""
    if found is None:
        first = said[0]
        return Verdict(None if first.reason else first.line, first.reason, first.length)
    length, is_defined = found
    if not is_defined:
        return Verdict(None, "undefined", length, True)
    right = {(None if one.reason else one.line, one.reason) for one in said if one.length == length}
    wanted = {line for line, _ in right}
    if len(wanted) != 1:
        return Verdict(None, "differ", length, True)
    return Verdict(*sorted(right, key=str)[0], length, True)


def agree(said):
    """Whether the three read as many bytes as each other, and the core has to read the same."""
    lines = {None if one.reason else one.line for one in said}
    return len(lines) == 1 and len({one.length for one in said}) == 1 and \
        len({one.reason == "undefined" for one in said}) == 1


def shown(string, length):
    """The string, and as many bytes behind it as are read there."""
    return (string + near_readers.BEHIND)[:max(len(string), length or 0)]


def strings_of(lines, seed):
    """The strings of each line; none stands twice."""
    seen, found = set(), {}
    for line in lines:
        rng = random.Random(f"{seed} {line.name}")
        strings = near_strings.near(rng, near_strings.ordered(rng, line.bases), line.opcode_bytes, seen)
        seen.update(strings)
        found[line.number] = strings
    return found


def read_all(lines, strings):
    """A judge for each disassembler."""
    every = {string for some in strings.values() for string in some}
    every |= {base for line in lines for base in line.bases}
    every |= {other for string in every for other in reduced(string)}
    every = sorted(every)
    judges = []
    for name, read in near_readers.READERS.items():
        judges.append(Judge(name, dict(zip(every, read(every))), lines))
        print(f"{name}: {len(every)} strings", file=sys.stderr)
    return judges


def verdicts(lines, strings, judges):
    """What the core has to read of each string, and what the three say of it."""
    said = {(number, string): [judge.said(lines[number], string) for judge in judges]
            for number, some in strings.items() for string in some}
    unsure = [key for key, some in said.items() if not agree(some)]
    measured = dict(zip(unsure, lengths.measure([string + near_readers.BEHIND for _, string in unsure])))
    return {key: (judged(some, measured.get(key)), some) for key, some in said.items()}


def table_text(lines, strings, found):
    rows = ["#op or why nothing\tlength\tbytes"]
    for line in lines:
        rows.append(f"#{line.number} {line.name}")
        for string in strings[line.number]:
            verdict, _ = found[line.number, string]
            what = verdict.reason or str(verdict.line)
            rows.append(f"{what}\t{verdict.length or '-'}\t{shown(string, verdict.length).hex()}")
    return "\n".join(rows) + "\n"


def difference_of(judges, string, said):
    """What each says of a string: nothing, or an instruction of so many bytes more or less than the string has."""
    texts = []
    for judge, one in zip(judges, said):
        length = "nothing" if one.length is None else f"{one.length - len(string):+}"
        texts.append(f"{judge.name} {length}{' as a line' if one.length and not one.reason else ''}")
    return ", ".join(texts)


def holes_of(found, judges):
    """How often each instruction is read that the core hasn't, by the first disassembler that reads it."""
    names = Counter()
    for (_, string), (verdict, _) in found.items():
        if verdict.reason == "no line":
            identity = next(judge.reads[string].identity for judge in judges if judge.reads[string])
            names[f"{'lock ' if True in identity else ''}{identity[0]}"] += 1
    return names


def differing(lines, found, judges):
    """The strings of which the three don't say the same, by what is taken and by what each says: how many, and one of them."""
    groups = defaultdict(list)
    for (number, string), (verdict, said) in found.items():
        if verdict.differs:
            kind = verdict.reason or READ
            groups[kind, difference_of(judges, string, said)].append(f"{string.hex(' ')}, of {lines[number].name}")
    for (kind, text), strings in sorted(groups.items(), key=lambda group: (group[0][0], -len(group[1]))):
        yield f"{len(strings):6} {kind}: {text}: {strings[0]}"


def summary_text(lines, found, judges):
    """Counts, what the core hasn't, and where the three differ."""
    reasons = Counter(verdict.reason or READ for verdict, _ in found.values())
    rows = ["What near.py found of the strings of near.tsv: where the core reads a line, and why nothing elsewhere.", ""]
    rows += [f"{count:6} {reason}" for reason, count in reasons.most_common()]
    rows += ["", "Instructions that the core hasn't:", ""]
    rows += [f"{count:6} {name}" for name, count in sorted(holes_of(found, judges).items())]
    rows += ["", "Where the three differ, what is taken by the processor's length, what each says, and a string:", ""]
    rows += differing(lines, found, judges)
    undecided = [f"{string.hex(' ')}, of {lines[number].name}" for (number, string), (verdict, _) in found.items()
                 if verdict.reason == "differ"]
    return "\n".join([*rows, "", f"Strings of which the length doesn't decide: {len(undecided)}", *undecided]) + "\n"


def main(seed=SEED):
    missing = [tool for tool in TOOLS if not shutil.which(tool)]
    if missing:
        print(f"{missing[0]} isn't on the path", file=sys.stderr)
        return 2
    lines = lines_of()
    strings = strings_of(lines, seed)
    judges = read_all(lines, strings)
    wrong = [sentence for judge in judges for sentence in judge.wrong]
    wrong += [f"{lines[number].name} has {len(some)} strings" for number, some in strings.items()
              if len(some) < near_strings.LEAST]
    found = verdicts(lines, strings, judges)
    (HERE / "near.tsv").write_text(table_text(lines, strings, found))
    (HERE / "near.txt").write_text(summary_text(lines, found, judges))
    for sentence in wrong[:40]:
        print(sentence, file=sys.stderr)
    print(f"{len(found)} strings, {sum(verdict.differs for verdict, _ in found.values())} of which the three say otherwise; "
          f"{len(wrong)} that aren't as they have to be", file=sys.stderr)
    return 1 if wrong else 0


if __name__ == "__main__":
    sys.exit(main(*sys.argv[1:]))
