"""What a line of the table says of an instruction, in the manual's terms."""

from dataclasses import dataclass
from typing import NamedTuple, Optional

# The legacy prefixes, in the order in which they are put. (Intel SDM, volume 2, 2.1.1.)
LEGACY_PREFIXES = ("F0", "66", "F2", "F3")

# The opcode maps of VEX by their numbers. (Intel SDM, volume 2, 2.3.5.)
MAP_NAMES = {1: "0F", 2: "0F38", 3: "0F3A"}


class Vex(NamedTuple):
    """The fields of a VEX prefix that a row fixes, by their numbers. (Intel SDM, volume 2, 2.3.5.)"""

    pp: int
    opcode_map: int
    l: int


@dataclass(frozen=True)
class Code:
    """What the manual's column `Opcode` says, without the immediate."""

    prefixes: frozenset
    may_have_rex: bool
    vex: Optional[Vex]
    w: Optional[int]
    escape: bool
    opcode: int
    has_modrm: bool
    digit: Optional[int]

    @property
    def prefix_number(self):
        """The set of the legacy prefixes as a number, or pp."""
        if self.vex:
            return self.vex.pp
        return sum(1 << place for place, prefix in enumerate(LEGACY_PREFIXES) if prefix in self.prefixes)

    @property
    def opcode_in_map(self):
        """The number of the opcode map, and the opcode byte. A map of VEX has its own number twice, and one without VEX
        0, or 1 behind 0F."""
        return (2 * self.vex.opcode_map if self.vex else int(self.escape)), self.opcode

    @property
    def map_name(self):
        return f"VEX {MAP_NAMES[self.vex.opcode_map]}"

    @property
    def legacy_bytes(self):
        return [int(prefix, 16) for prefix in LEGACY_PREFIXES if prefix in self.prefixes]

    @property
    def opcode_bytes(self):
        return [0x0F, self.opcode] if self.escape else [self.opcode]

    @property
    def opcode_name(self):
        digit = "" if self.digit is None else f" /{self.digit}"
        return " ".join(f"{byte:02X}" for byte in self.opcode_bytes) + digit


@dataclass(frozen=True)
class Operand:
    """A field of a struct. `kind` is one of the words of `KINDS` in reading.py."""

    name: str
    kind: str
    size: Optional[int] = None
    access: str = "Read"
    number: Optional[int] = None
    implicit: bool = False
    reading: Optional[str] = None

    @property
    def is_register(self):
        """A register that stands in the bytes."""
        return self.kind in ("general", "vector")

    @property
    def is_place(self):
        """What ModR/M and its rest hold beside the register in reg."""
        return self.kind in ("memory", "general or memory", "vector or memory")

    @property
    def is_signed(self):
        return self.reading in ("sx16", "sx32", "sx64", "distance")


@dataclass(frozen=True)
class Group:
    """The instructions of one file, which are those of a section of the manual."""

    crate: str
    file: str
    doc: str
    line: int

    @property
    def name(self):
        return f"{self.crate}/{self.file}"


@dataclass(frozen=True)
class Instruction:
    """A line of the table: a struct, a row, or both."""

    name: str
    line: int
    group: Group
    operands: tuple
    doc: str
    code: Optional[Code] = None
    row_name: Optional[str] = None
    has_struct: bool = True
    style: str = "plain"
    extension: Optional[str] = None
    is_64_bit_alone: bool = False
    mnemonic: Optional[str] = None
    memory_mnemonic: Optional[str] = None
    visits: tuple = ()

    @property
    def row(self):
        """The name of its row, which is its own unless it shares another's."""
        return self.row_name or self.name

    @property
    def is_row(self):
        return self.row_name is None

    @property
    def nop(self):
        """The number of bytes of a no-operation whose bytes are its own, or None."""
        return self.operands[0].number if self.operands and self.operands[0].kind == "nop" else None

    @property
    def has_registers(self):
        return any(operand.kind not in ("immediate", "nop") for operand in self.operands)

    @property
    def in_order_of_visits(self):
        if not self.visits:
            return list(self.operands)
        return sorted(self.operands, key=lambda operand: self.visits.index(operand.name))

    @property
    def registers(self):
        """The registers in the bytes: the first stands in reg, the second in vvvv."""
        return [operand for operand in self.operands if operand.is_register]

    @property
    def place(self):
        return next((operand for operand in self.operands if operand.is_place), None)

    @property
    def immediate(self):
        return next((operand for operand in self.operands if operand.kind == "immediate"), None)

    @property
    def printed_mnemonic(self):
        """The name up to its first underscore; behind `lock_`, which is a prefix, up to the next one."""
        if self.mnemonic:
            return self.mnemonic
        if self.name.startswith("lock_"):
            return "lock " + self.name.split("_")[1]
        return self.name.split("_")[0]

    @property
    def is_64_bit(self):
        """Whether it stands in 64-bit mode alone: where W is 1, and where its line says so."""
        return self.is_64_bit_alone or self.code.w == 1


@dataclass(frozen=True)
class Table:
    """All instructions in the order of the table, and the rows in the order of the definitions' table."""

    groups: tuple
    instructions: tuple
    rows: tuple
    visits: dict
    names: dict

    @property
    def structs(self):
        return [instruction for instruction in self.instructions if instruction.has_struct]

    @property
    def crates(self):
        return sorted({group.crate for group in self.groups})

    def of_group(self, name):
        return [instruction for instruction in self.structs if instruction.group.name == name]

    def of_crate(self, crate):
        return [instruction for instruction in self.structs if instruction.group.crate == crate]
