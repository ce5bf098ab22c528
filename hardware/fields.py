"""An instruction by its fields, and what kind of operation its row is. Nothing here looks at bytes."""

import re
from typing import NamedTuple, Optional, Union

WIDTHS = {"b": 1, "w": 2, "l": 4, "q": 8}
# The conditions by their numbers. (Intel SDM, volume 2, appendix B, table B-10.)
CONDITIONS = "o no b ae e ne be a s ns p np l ge le g".split()
VECTOR_WIDTHS = {"ps": 16, "pd": 16, "ss": 4, "sd": 8}


class View(NamedTuple):
    """A register: its number, and whether that is of ah, ch, dh or bh."""

    number: int
    is_high: bool = False


class Register(NamedTuple):
    view: View


class Memory(NamedTuple):
    base: Optional[int]
    index: Optional[int]
    factor: int
    displacement: int


class Relative(NamedTuple):
    """Memory so far from the instruction's end."""

    displacement: int


Place = Union[Register, Memory, Relative]


class Operation(NamedTuple):
    """What a row does: a kind, what distinguishes rows of one kind, and how many bytes its operand has."""

    kind: str
    name: str
    width: int


FORMS = (
    (r"lock_(add|or|adc|sbb|and|sub|xor)([bwlq])_m[ir](?:_sx[bl])?", lambda m: Operation("arithmetic", m[1], WIDTHS[m[2]])),
    (r"lock_(xadd|cmpxchg)([bwlq])_mr", lambda m: Operation(m[1], "", WIDTHS[m[2]])),
    (r"lock_cmpxchg16b_m", lambda m: Operation("cmpxchg16b", "", 16)),
    (r"xchg([bwlq])_rm", lambda m: Operation("xchg", "", WIDTHS[m[1]])),
    (r"(rol|ror|shl|shr|sar)([bwlq])_m1", lambda m: Operation("shift", m[1], WIDTHS[m[2]])),
    (r"(call|jmp)q_m", lambda m: Operation("far", m[1], 8)),
    (r"andps_a", lambda m: Operation("andps", "", 16)),
    (r"(v?)cmp(ps|pd|ss|sd)_[ab]", lambda m: Operation(m[1] + "compare", m[2], VECTOR_WIDTHS[m[2]])),
    (r"(vcvtpd2ps|vcvttpd2dq)_a", lambda m: Operation("convert", m[1], 16)),
    (r"mulx([lq])_rvm", lambda m: Operation("mulx", "", WIDTHS[m[1]])),
    (r"andb_i", lambda m: Operation("and al", "and", 1)),
    (r"(?:(call)q_d|(jmp)_d(?:8|32))", lambda m: Operation("near", m[1] or m[2], 8)),
    (r"j([a-z]+)_d(?:8|32)", lambda m: Operation("branch", m[1], 8)),
    (r"nop_[1-9]b|nopl_rm|nopw_rm", lambda m: Operation("nop", "", 0)),
)


def operation_of(row):
    for form, made in FORMS:
        match = re.fullmatch(form, row)
        if match:
            return made(match)
    raise ValueError(f"{row} is no row that is known here")


class Instruction:
    """A row with its operands, and how many bytes it has."""

    def __init__(self, row, reg, vvvv, place, immediate, length):
        self.row, self.reg, self.vvvv, self.place = row, reg, vvvv, place
        self.immediate, self.length = immediate, length
        self.operation = operation_of(row)

    def with_place(self, place):
        return Instruction(self.row, self.reg, self.vvvv, place, self.immediate, self.length)

    @property
    def kind(self):
        return self.operation.kind

    @property
    def width(self):
        return self.operation.width

    @property
    def has_memory(self):
        """Whether it reads or writes memory that its place names."""
        return isinstance(self.place, (Memory, Relative)) and self.kind != "nop"

    @property
    def writes_memory(self):
        return self.kind in ("arithmetic", "xadd", "cmpxchg", "cmpxchg16b", "xchg", "shift")

    @property
    def has_lock(self):
        return self.row.startswith("lock_")

    @property
    def is_locked(self):
        """With the lock prefix, or as if it stood there. (Intel SDM, volume 3, 9.1.2.1.)"""
        return self.has_lock or self.kind == "xchg"

    @property
    def is_vector(self):
        return self.kind in ("andps", "compare", "vcompare", "convert")

    @property
    def is_vex(self):
        return self.row.startswith(("v", "mulx"))

    @property
    def pushes(self):
        return self.kind in ("far", "near") and self.operation.name == "call"

    @property
    def alignment(self):
        """Operands of 16 bytes without VEX fault where they aren't aligned, and so does that of cmpxchg16b."""
        is_packed = self.kind == "compare" and self.operation.name in ("ps", "pd")
        return 16 if self.kind in ("andps", "cmpxchg16b") or is_packed else 1


def immediate_bytes(row):
    """How many bytes of immediate stand behind the tail of a row that has one."""
    if re.fullmatch(r"v?cmp(ps|pd|ss|sd)_[ab]", row):
        return 1
    match = re.fullmatch(r"lock_[a-z]+([bwlq])_mi(_sx[bl])?", row)
    if not match:
        return 0
    return 1 if match[2] == "_sxb" or match[1] == "b" else 2 if match[1] == "w" else 4


def tail_bytes(place):
    """ModR/M, SIB and displacement of memory with a base, or of a relative place, as short as can be. (Intel SDM, volume
    2, tables 2-2 and 2-3.)"""
    if isinstance(place, Relative):
        return 5
    short = -128 <= place.displacement < 128
    displacement = 0 if place.displacement == 0 and place.base % 8 != 5 else 1 if short else 4
    return 1 + (place.index is not None or place.base % 8 == 4) + displacement
