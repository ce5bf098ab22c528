"""What each line of the core does: its operands, those that no operand names, and flags. A line of table/effects.txt that
can't be is refused with one sentence.

`uses_of_lines(ROOT)` reads the tables and gives all lines in the order of their numbers, each a `LineUse`.
"""

import re
from fnmatch import fnmatchcase
from typing import NamedTuple, Optional

from core_lines import CORE, CoreGroup, core_of
from judging import table_of
from parts import TABLE, text_of
from reading import ACCESS_WORDS, Refused, judge_characters

EFFECTS = "table/effects.txt"
COLUMNS = ("lines", "operands", "read", "written", "undefined", "page")

# The places of the status flags in EFLAGS. (Intel SDM, volume 1, 3.4.3.)
FLAGS = {"CF": 0, "PF": 2, "AF": 4, "ZF": 6, "SF": 7, "OF": 11}

# The registers that lines use beside their operands, by their numbers.
BESIDE = {"rsp": 4, "rbp": 5}
STACK = re.compile(r"stack(16|64)")
GENERAL_BITS, VECTOR_BITS = 64, 128

HOMES = {"memory": "Place", "general or memory": "Place", "vector or memory": "Place", "immediate": "Imm"}
CLASSES = {"general": "General", "general or memory": "General", "fixed": "General", "vector": "Vector",
           "vector or memory": "Vector", "memory": "None", "immediate": "None"}


class Use(NamedTuple):
    """An operand of a line, as `LineOperand` of x64_lines has it. `home` is Reg, Vvvv, Place, Fixed, Imm or Stack, and `number` that of
    a fixed register; `kind` is General, Vector or None, and `access` None, Read, Write or ReadWrite."""

    home: str
    number: Optional[int]
    kind: str
    access: str
    bits: int
    is_printed: bool


class LineUse(NamedTuple):
    """What a line does: its operands, and sets of names of flags."""

    name: str
    uses: tuple
    read: frozenset
    written: frozenset
    undefined: frozenset


class Effect(NamedTuple):
    """A line of effects.txt. `beside` are uses that no operand names, and `is_idle` says that the place isn't used."""

    line: int
    patterns: tuple
    beside: tuple
    is_idle: bool
    read: frozenset
    written: frozenset
    undefined: frozenset


def flags_of(text):
    """The names of flags in a column."""
    words = text.split()
    if words == ["all"]:
        return frozenset(FLAGS)
    for place, word in enumerate(words):
        if word not in FLAGS:
            raise Refused(f"{word} is no flag, as {' '.join(FLAGS)}, and no `all`, which stands alone")
        if word in words[:place]:
            raise Refused(f"{word} stands twice in a column")
    return frozenset(words)


def beside_of(word):
    """What a word names that isn't an operand: a register or memory, and what is done with it."""
    name, _, said = word.partition(":")
    access = ACCESS_WORDS.get(said, None if said or word.endswith(":") else "Read")
    stack = STACK.fullmatch(name)
    if access and name in BESIDE:
        return Use("Fixed", BESIDE[name], "General", access, GENERAL_BITS, False)
    if access and stack:
        return Use("Stack", None, "None", access, int(stack[1]), False)
    raise Refused(f"{word} is no word for what a line does beside its operands, as rsp:rw, stack64:w or idle")


def effect_of(text, number):
    columns = [column.strip() for column in text.split("|")]
    if len(columns) != len(COLUMNS):
        raise Refused(f"it has {len(columns)} columns, and a line has {len(COLUMNS)}: {', '.join(COLUMNS)}")
    patterns, operands, read, written, undefined, page = columns
    if not patterns or not page:
        raise Refused("it names no lines, or no page of the manual")
    words = operands.split()
    beside = tuple(beside_of(word) for word in words if word != "idle")
    sets = [flags_of(column) for column in (read, written, undefined)]
    for flag in sorted(sets[1] & sets[2]):
        raise Refused(f"{flag} is written, and undefined too")
    return Effect(number, tuple(patterns.split()), beside, "idle" in words, *sets)


class Effects:
    """The lines of the table, with the sentences that bad ones get."""

    def __init__(self, text):
        self.found = []
        self.sentences = []
        for number, line in enumerate(text.removesuffix("\n").split("\n"), 1):
            try:
                judge_characters(line)
                if line and not line.startswith("#"):
                    self.found.append(effect_of(line, number))
            except Refused as refused:
                self.refuse(number, line.split("|")[0].strip(), refused)

    def refuse(self, number, name, sentence):
        self.sentences.append((number, name.encode("ascii", "backslashreplace").decode() or "a line", str(sentence)))

    def judge(self, lines):
        """Each line of the core has one effect, and each pattern a line; what is said of a place, a line that has one."""
        used = {}
        for line in lines:
            found = [(effect, pattern) for effect in self.found for pattern in effect.patterns if fnmatchcase(line.name, pattern)]
            used.update(((effect.line, pattern), line) for effect, pattern in found)
            if not found:
                self.refuse(0, line.name, "no pattern names the line, so what it does beside its operands isn't said")
            for effect, pattern in found[1:]:
                self.refuse(effect.line, pattern, f"it names {line.name}, as line {found[0][0].line} does with {found[0][1]}")
            for effect, pattern in found[:1]:
                if effect.is_idle and line.place is None:
                    self.refuse(effect.line, pattern, f"it says idle of {line.name}, which has no place")
        for effect in self.found:
            for pattern in effect.patterns:
                if (effect.line, pattern) not in used:
                    self.refuse(effect.line, pattern, "it is no pattern of a line's name")

    def of(self, line):
        return next(effect for effect in self.found for pattern in effect.patterns if fnmatchcase(line.name, pattern))


def home_of(operand, line):
    """Where an operand is: the first register in the bytes stands in reg, the second in vvvv."""
    if operand.kind == "fixed":
        return "Fixed"
    if operand.is_register:
        return "Reg" if operand == line.registers[0] else "Vvvv"
    return HOMES[operand.kind]


def access_of(operand, line, effect):
    """What is done with an operand. In the table of rows memory alone is an address; each row with such an operand is locked
    or an exchange, and reads and writes what stands there."""
    if operand.is_place and effect.is_idle:
        return "None"
    is_row = not isinstance(line.group, CoreGroup)
    return "ReadWrite" if is_row and operand.kind == "memory" else operand.access


def use_of(operand, line, effect):
    return Use(home_of(operand, line), operand.number, CLASSES[operand.kind], access_of(operand, line, effect),
               operand.size or VECTOR_BITS, not operand.implicit)


def line_use(line, effect):
    """What a line does. What no operand names stands behind its operands."""
    operands = (use_of(operand, line, effect) for operand in line.operands if operand.kind != "nop")
    return LineUse(line.name, (*operands, *effect.beside), effect.read, effect.written, effect.undefined)


def uses_of(text, lines):
    """What each line does, in their order, or the sentences that lines of effects.txt get."""
    effects = Effects(text)
    if not effects.sentences:
        effects.judge(lines)
    if effects.sentences:
        return None, sorted(effects.sentences)
    return tuple(line_use(line, effects.of(line)) for line in lines), []


def uses_of_lines(root):
    """What each line of the core does, by its number, as the tables of this checkout say it."""
    table, sentences = table_of(root, text_of(root, TABLE))
    core, more = core_of(text_of(root, CORE), table.rows) if table else (None, [])
    uses, others = uses_of(text_of(root, EFFECTS), [*table.rows, *core.lines]) if core else (None, [])
    for number, name, sentence in [*sentences, *more, *others]:
        raise Refused(f"{number}: {name}: {sentence}")
    return uses
