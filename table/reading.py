"""Reads the table. A line that can't be is refused with one sentence."""

import re

from instruction import LEGACY_PREFIXES, Code, Group, Instruction, Operand, Vex

COLUMNS = ("name", "code", "operands", "words", "sentence")

STYLES = ("forward", "exchange", "shift", "call", "jump", "branch", "compare")
EXTENSIONS = ("sse", "sse2", "avx", "bmi2", "cmpxchg16b")
READINGS = ("sx16", "sx32", "sx64", "predicate", "distance", "count")

# What an operand is by the form of its name, as the manual's column `Instruction` writes it.
KINDS = (
    (re.compile(r"m(8|16|32|64|128)"), "memory"),
    (re.compile(r"r(8|16|32|64)[a-z]?"), "general"),
    (re.compile(r"rm(8|16|32|64)"), "general or memory"),
    (re.compile(r"xmm[1-3]()"), "vector"),
    (re.compile(r"xmm_m(32|64|128)"), "vector or memory"),
    (re.compile(r"imm(8|16|32)"), "immediate"),
)

# The registers that an instruction may fix, by their numbers, and their names by size.
FIXED = {
    name: (number, size)
    for number, names in enumerate(("al ax eax rax", "cl cx ecx rcx", "dl dx edx rdx", "bl bx ebx rbx"))
    for name, size in zip(names.split(), (8, 16, 32, 64))
}

# The accesses that cax64_operand has a kind of operand for.
ACCESSES = {
    "memory": ("Read",),
    "general": ("Read", "ReadWrite", "Write"),
    "general or memory": ("Read", "ReadWrite"),
    "vector": ("Read", "ReadWrite", "Write"),
    "vector or memory": ("Read",),
    "immediate": ("Read",),
    "fixed": ("Read", "ReadWrite"),
}
ACCESS_WORDS = {"w": "Write", "rw": "ReadWrite"}

VEX_L = {"128": 0, "256": 1, "LZ": 0, "L0": 0, "L1": 1}
VEX_PP = {"NP": 0, "66": 1, "F3": 2, "F2": 3}
VEX_MAP = {"0F": 1, "0F38": 2, "0F3A": 3}
VEX_W = {"W0": 0, "W1": 1, "WIG": None}


# Bytes of one-byte opcodes that are prefixes in 64-bit mode. (Intel SDM, volume 2, 2.1.1, 2.2.1, 2.3.)
PREFIX_BYTES = {0x26, 0x2E, 0x36, 0x3E, *range(0x40, 0x50), 0x62, 0x64, 0x65, 0x66, 0x67, 0xC4, 0xC5, 0xF0, 0xF2, 0xF3}
# What stands behind 0F where the opcode is in a map of its own, and 0F itself. (Intel SDM, volume 2, 2.1.2.)
ESCAPES = {0x0F, 0x38, 0x3A}


class Refused(Exception):
    """Why a line can't be."""


def vex_of(word):
    """The fields of `VEX.128.66.0F.W0`, and its W. Without pp there is no prefix in it."""
    parts = word.split(".")[1:]
    if len(parts) == 3:
        parts.insert(1, "NP")
    if len(parts) != 4:
        raise Refused(f"{word} hasn't the fields of a VEX prefix, as VEX.128.66.0F.W0")
    for part, known in zip(parts, (VEX_L, VEX_PP, VEX_MAP, VEX_W)):
        if part not in known:
            raise Refused(f"{part} in {word} is no such field of a VEX prefix: there are {', '.join(known)}")
    l, pp, opcode_map, w = parts
    return Vex(VEX_PP[pp], VEX_MAP[opcode_map], VEX_L[l]), VEX_W[w]


class CodeWords:
    """The words of a code that are still to be read, from left to right."""

    def __init__(self, text):
        self.words = text.split()

    def take(self, *known):
        return self.words.pop(0) if self.words and self.words[0] in known else None

    def prefixes(self):
        """The legacy prefixes, each once and in their order. (Intel SDM, volume 2, 2.1.1.)"""
        found = []
        while self.words and self.words[0] in LEGACY_PREFIXES:
            found.append(self.words.pop(0))
        if found != [prefix for prefix in LEGACY_PREFIXES if prefix in found]:
            raise Refused(f"{' '.join(found)}: each prefix stands once, in the order {' '.join(LEGACY_PREFIXES)}")
        if "F2" in found and "F3" in found:
            raise Refused("F2 and F3 don't stand together: processors take one of them")
        return frozenset(found)

    def opcode(self):
        word = self.words.pop(0) if self.words else "nothing"
        if not re.fullmatch(r"[0-9A-F]{2}", word):
            raise Refused(f"{word} stands where the opcode byte would, two digits as 8F")
        return int(word, 16)

    def legacy_opcode(self):
        """Whether 0F stands before the opcode, and the opcode."""
        escape = self.take("0F") is not None
        if escape and not self.words:
            raise Refused("0F is no opcode: the opcode stands behind it")
        opcode = self.opcode()
        if escape and opcode in ESCAPES:
            raise Refused(f"0F {opcode:02X} are two escapes, and an opcode without VEX has one at most")
        if not escape and opcode in PREFIX_BYTES:
            raise Refused(f"{opcode:02X} is a prefix, and no opcode")
        return escape, opcode

    def tail(self):
        """Whether there is a ModR/M byte, and the digit in it."""
        word = self.take("/r", *(f"/{digit}" for digit in range(8)))
        if self.words:
            raise Refused(f"{self.words[0]} stands behind the opcode, where only /r or a digit from /0 to /7 may")
        if word is None or word == "/r":
            return word is not None, None
        return True, int(word[1:])


def code_of(text):
    """The code that this column says."""
    words = CodeWords(text)
    if words.words and words.words[0].startswith("VEX."):
        vex, w = vex_of(words.words.pop(0))
        opcode = words.opcode()
        return Code(frozenset(), True, vex, w, False, opcode, *words.tail())
    prefixes = words.prefixes()
    w = {None: None, "W0": 0, "W1": 1}[words.take("W0", "W1")]
    may_have_rex = words.take("noREX") is None
    return Code(prefixes, may_have_rex, None, w, *words.legacy_opcode(), *words.tail())


def kind_of(name):
    """What an operand of this name is: its kind, its size and the register's number, if it is fixed."""
    if name in FIXED:
        number, size = FIXED[name]
        return "fixed", size, number
    for form, kind in KINDS:
        match = form.fullmatch(name)
        if match:
            return kind, int(match[1]) if match[1] else None, None
    raise Refused(f"{name} is no operand's name, as r32, m32, rm32, imm32, xmm1, xmm_m128 or eax")


def role_of(word, kind, text):
    """What a word behind an operand's name says: a value of the operand, by its name."""
    if word in ACCESS_WORDS:
        return "access", ACCESS_WORDS[word]
    if word == "implicit" and kind == "fixed":
        return "implicit", True
    if word in READINGS and kind == "immediate":
        return "reading", word
    raise Refused(f"{word} in {text} is a word that an operand of this kind doesn't know")


def operand_of(text):
    """The operand of a word such as `r32:rw` or `imm8:sx32`."""
    name, *words = text.split(":")
    if name == "nop":
        if len(words) != 1 or not re.fullmatch(r"[1-9]", words[0]):
            raise Refused(f"{text} names no no-operation, as nop:1 to nop:9 do")
        return Operand("nop", "nop", number=int(words[0]))
    kind, size, number = kind_of(name)
    said = {}
    for word in words:
        role, value = role_of(word, kind, text)
        if role in said:
            raise Refused(f"{word} in {text} says once more what another word says")
        said[role] = value
    operand = Operand(name, kind, size, number=number, **said)
    if operand.access not in ACCESSES[kind]:
        raise Refused(f"{text}: no kind of operand says this access")
    return operand


def word_of(word):
    """What a word says: a value of an instruction, by its name."""
    name, _, value = word.partition(":")
    if word in STYLES:
        return "style", word
    if word in EXTENSIONS:
        return "extension", word
    if word == "64-bit":
        return "is_64_bit_alone", True
    if word == "row":
        return "has_struct", False
    if name == "mnemonic" and value:
        return "mnemonic", value
    if name == "memory" and value:
        return "memory_mnemonic", value
    if name == "visits" and value:
        return "visits", tuple(value.split(","))
    raise Refused(f"{word} is a word that the table doesn't know")


def words_of(text):
    """What the words of a line say, as named values of an instruction."""
    said = {}
    for word in text.split():
        name, value = word_of(word)
        if name in said:
            raise Refused(f"{word} says once more what another word says")
        said[name] = value
    return said


def instruction_of(text, line, group):
    """The instruction of a line."""
    columns = [column.strip() for column in text.split("|")]
    if len(columns) != len(COLUMNS):
        raise Refused(f"it has {len(columns)} columns, and a line has {len(COLUMNS)}: {', '.join(COLUMNS)}")
    name, code, operands, words, sentence = columns
    if not re.fullmatch(r"[a-z][a-z0-9_]*", name):
        raise Refused("the name of an instruction is small letters, digits and underscores")
    said = words_of(words)
    if code.startswith("= "):
        said["row_name"] = code[2:]
    else:
        said["code"] = code_of(code)
    operands = tuple(operand_of(operand) for operand in operands.split())
    return Instruction(name, line, group, operands, sentence, **said)


def judge_characters(line):
    """Nothing stands in the table that isn't seen: printable ASCII alone, and no space at a line's end."""
    for place, character in enumerate(line, 1):
        if not " " <= character <= "~":
            raise Refused(f"its character {place} is U+{ord(character):04X}, and a line has printable ASCII alone")
    if line.endswith(" "):
        raise Refused("a space stands at its end")


def name_of(line):
    """What a line that can't be is called: the instruction, the group or the function that it is of."""
    named = re.match(r"\[(\w+/\w+)\]|(?:visit|names) ([\w:]+):", line)
    name = (named[1] or named[2]) if named else line.split("|")[0].strip()
    return name.encode("ascii", "backslashreplace").decode() or "a line"


class Lines:
    """The lines of a table by kinds, with the sentences that bad ones get."""

    def __init__(self, text):
        self.groups = []
        self.instructions = []
        self.visits = {}
        self.names = {}
        self.sentences = []
        self.misses_group = False
        for number, line in enumerate(text.removesuffix("\n").split("\n"), 1):
            try:
                self.read(number, line)
            except Refused as refused:
                self.refuse(number, name_of(line), refused)
        if not self.sentences and not self.instructions:
            self.refuse(0, "the table", "it has no line of an instruction")

    def refuse(self, number, name, sentence):
        self.sentences.append((number, name, str(sentence)))

    def refuse_once(self, number, name, sentence):
        """The same of two lines is said of the first."""
        if all(said != sentence for _, _, said in self.sentences):
            self.refuse(number, name, sentence)

    def read(self, number, line):
        judge_characters(line)
        if not line or line.startswith("#"):
            return
        if line.startswith("["):
            self.read_group(number, line)
        elif re.match(r"(visit|names) [^|]*$", line):
            self.read_list(number, line)
        elif self.misses_group:
            return
        elif not self.groups:
            self.misses_group = True
            raise Refused("it stands before the first group, a line as [lock_a/add] and what the file is about")
        else:
            self.instructions.append(instruction_of(line, number, self.groups[-1]))

    def read_group(self, number, line):
        match = re.fullmatch(r"\[(\w+)/(\w+)\] (\S.*)", line)
        if not match:
            raise Refused("a group is its crate and file in brackets, and what the file is about")
        group = Group(*match.groups(), number)
        if any(group.name == other.name for other in self.groups):
            raise Refused("the group stands twice")
        self.groups.append(group)

    def read_list(self, number, line):
        """A list of groups whose instructions stand together in one function."""
        match = re.fullmatch(r"(visit|names) ([\w:]+): (\S.*)", line)
        if not match:
            raise Refused("a list is `visit` or `names`, its function and a colon, and then groups")
        lists = self.visits if match[1] == "visit" else self.names
        if match[2] in lists:
            raise Refused(f"the function has a list in line {lists[match[2]][0]} already")
        lists[match[2]] = (number, match[3].split())
