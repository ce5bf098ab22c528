"""Reads the lines of the core, and judges each by itself and all together. A line that can't be is refused with one
sentence."""

import re
from dataclasses import dataclass
from typing import NamedTuple

from instruction import Instruction, Operand
from judging import judge_immediate, judge_names, judge_reading, judge_tail, keys_of, width_of
from reading import ACCESS_WORDS, Refused, code_of, judge_characters, kind_of, name_of, role_of
from rows import PLACE_MEMORY, PLACE_REGISTER_8, TAIL_REGISTER, TAIL_REGISTER_8, place_field, tail_field

CORE = "table/core.txt"
COLUMNS = ("name", "code", "operands", "words")
EXTENSIONS = ("sse", "sse2", "bmi1", "lzcnt", "popcnt", "avx", "bmi2", "cmpxchg16b")

# The most bytes of an instruction that the encoder writes, and of its tail.
MOST_BYTES = 13
MOST_TAIL = 6


class CoreGroup(NamedTuple):
    """Lines of one kind of instruction, and the file of their constants."""

    file: str
    name: str
    doc: str
    line: int


@dataclass(frozen=True)
class Core:
    """The lines in the order of the table, behind the rows, and what each file of constants is about."""

    abouts: dict
    groups: tuple
    lines: tuple

    def of_file(self, file):
        return [line for line in self.lines if line.group.file == file]

    @property
    def files(self):
        return list(self.abouts)


def shape_of(line):
    """Where the operands of a line stand in the bytes: the name of a variant of `OpFields`, None where there is none."""
    registers, place = len(line.registers), line.place
    if place is None:
        return None if registers else "Bare"
    kind = "Mem" if place.kind == "memory" else "Rm"
    return {0: kind, 1: f"Reg{kind}", 2: "RegVvvvRm" if kind == "Rm" else None}[registers]


def immediate_type(line):
    """The type of an immediate."""
    return f"{'i' if line.immediate.is_signed else 'u'}{line.immediate.size}"


def operand_of(text):
    """The operand of a word such as `rm32:rw`. What is said of a place holds of the register or the memory there."""
    name, *words = text.split(":")
    kind, size, number = kind_of(name)
    said = {}
    for word in words:
        role, value = role_of(word, kind, text)
        if role in said:
            raise Refused(f"{word} in {text} says once more what another word says")
        said[role] = value
    operand = Operand(name, kind, size, number=number, **said)
    if kind == "immediate" and operand.access != "Read":
        raise Refused(f"{text}: an immediate is read, and {' or '.join(ACCESS_WORDS)} isn't said of it")
    return operand


def extension_of(text):
    """The extension that the words of a line name, if they name one."""
    words = text.split()
    for word in words:
        if word not in EXTENSIONS:
            raise Refused(f"{word} is a word that the core doesn't know")
    if len(words) > 1:
        raise Refused(f"{words[1]} says once more what another word says")
    return words[0] if words else None


def line_of(text, number, group):
    columns = [column.strip() for column in text.split("|")]
    if len(columns) != len(COLUMNS):
        raise Refused(f"it has {len(columns)} columns, and a line has {len(COLUMNS)}: {', '.join(COLUMNS)}")
    name, code, operands, words = columns
    if not re.fullmatch(r"[a-z][a-z0-9_]*", name):
        raise Refused("the name of an instruction is small letters, digits and underscores")
    found = tuple(operand_of(operand) for operand in operands.split())
    return Instruction(name, number, group, found, "", code=code_of(code), extension=extension_of(words))


def judge_8bit(line):
    """An 8-bit register in reg stands beside memory alone, and an 8-bit place beside a digit alone."""
    reg, place = tail_field(line), place_field(line)
    if reg == TAIL_REGISTER_8 and place != PLACE_MEMORY:
        raise Refused(f"{line.registers[0].name} stands in reg, beside which {line.place.name} may be memory alone")
    if reg == TAIL_REGISTER and place == PLACE_REGISTER_8:
        raise Refused(f"{line.place.name} stands beside a register in reg, where it may be memory alone")


def judge_size(line):
    code = line.code
    before = len(code.legacy_bytes) + 1
    if before > 3:
        raise Refused(f"{' '.join(sorted(code.prefixes))} are more than two prefixes")
    tail = MOST_TAIL if code.has_modrm else 0
    size = before + len(code.opcode_bytes) + tail + (line.immediate.size // 8 if line.immediate else 0)
    if size > MOST_BYTES:
        raise Refused(f"it may have {size} bytes, and an instruction has {MOST_BYTES} at most")


def judge_shape(line):
    """A type of constants has its makers."""
    shape = shape_of(line)
    if shape is None or (shape == "RegMem" and line.immediate):
        raise Refused("no type of constants takes its operands together")


def judge_core_immediate(line):
    """As of a row, but an immediate that works on nothing else needs no word: what `ret` takes off, for example."""
    if width_of(line) is None and len([operand for operand in line.operands if operand.kind == "immediate"]) == 1:
        judge_reading(line.immediate)
    else:
        judge_immediate(line)


def judge_line(line):
    if line.code.vex:
        raise Refused("it has a VEX prefix, and the lines of the core have legacy prefixes alone")
    if line.operands:
        judge_names(line)
    judge_tail(line)
    judge_core_immediate(line)
    if not line.code.has_modrm and line.code.w == 1:
        raise Refused("it has W1, whose REX byte the encoder writes beside a ModR/M byte alone")
    if line.code.has_modrm and not line.code.may_have_rex:
        raise Refused("it has a ModR/M byte, beside which a REX byte has to be allowed")
    judge_8bit(line)
    judge_size(line)
    judge_shape(line)


class CoreLines:
    """What stands in the table, with the sentences that bad lines get."""

    def __init__(self, text):
        self.abouts = {}
        self.groups = []
        self.lines = []
        self.sentences = []
        for number, line in enumerate(text.removesuffix("\n").split("\n"), 1):
            try:
                self.read(number, line)
            except Refused as refused:
                self.refuse(number, name_of(line), refused)
        if not self.sentences and not self.lines:
            self.refuse(0, "the core", "it has no line of an instruction")

    def refuse(self, number, name, sentence):
        self.sentences.append((number, name, str(sentence)))

    def read(self, number, line):
        judge_characters(line)
        if not line or line.startswith("#"):
            return
        if line.startswith("["):
            self.read_group(number, line)
        elif re.match(r"file [^|]*$", line):
            self.read_file(line)
        elif not self.groups:
            raise Refused("it stands before the first group, a line as [moves/lea] and what the group is about")
        else:
            found = line_of(line, number, self.groups[-1])
            judge_line(found)
            self.lines.append(found)

    def read_file(self, line):
        """A file of constants. Those of a group stand in the file that was named before it."""
        match = re.fullmatch(r"file (\w+): (\S.*\.)", line)
        if not match:
            raise Refused("a file is its name and a colon, and then a sentence that says what it is about")
        if match[1] in self.abouts:
            raise Refused("the file stands twice")
        self.abouts[match[1]] = match[2]

    def read_group(self, number, line):
        match = re.fullmatch(r"\[(\w+)/(\w+)\] (\S.*)", line)
        if not match:
            raise Refused("a group is its file and name in brackets, and what it is about")
        group = CoreGroup(*match.groups(), number)
        if group.file != next(reversed(self.abouts), None):
            raise Refused(f"{group.file} isn't the file that is named before it, a line as `file moves: Moves.`")
        if any((group.file, group.name) == (other.file, other.name) for other in self.groups):
            raise Refused("the group stands twice")
        self.groups.append(group)


def place_of(line):
    """Where a line stands that another is compared with."""
    return f"{line.name}, line {line.line}" if isinstance(line.group, CoreGroup) else f"the row {line.name}"


def judge_together(found, rows):
    """No name stands twice, no two lines read the same bytes, and the lines of an opcode have digits all or none."""
    names = {row.name: row for row in rows}
    keys = {key: row for row in rows for key in keys_of(row)}
    digits = {row.code.opcode_in_map: row for row in rows}
    for line in found.lines:
        same = next((keys[key] for key in keys_of(line) if key in keys), None)
        first = digits.get(line.code.opcode_in_map, line)
        if line.name in names:
            found.refuse(line.line, line.name, f"the name is that of {place_of(names[line.name])}")
        elif same:
            found.refuse(line.line, line.name, f"its prefixes, W, opcode and digit are those of {place_of(same)}")
        elif (first.code.digit is None) != (line.code.digit is None):
            has, other_has = ("no digit", "one") if line.code.digit is None else ("a digit", "none")
            found.refuse(line.line, line.name, f"its opcode has {has} here, and {other_has} in {place_of(first)}")
        names.setdefault(line.name, line)
        digits.setdefault(line.code.opcode_in_map, line)
        keys.update((key, line) for key in keys_of(line) if key not in keys)


def core_of(text, rows):
    """The core, or the sentences that its lines get."""
    found = CoreLines(text)
    if not found.sentences:
        judge_together(found, rows)
    if found.sentences:
        return None, sorted(found.sentences)
    return Core(found.abouts, tuple(found.groups), tuple(found.lines)), []
