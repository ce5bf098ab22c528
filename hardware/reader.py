"""A reader by the table's codes, for two things: to tell of wrong bytes that nothing noticed whether they read as the right
ones do, and which operands strings have that disassemblers read as a line."""

import sys
from pathlib import Path
from typing import NamedTuple, Optional

ROOT = Path(__file__).resolve().parent.parent
sys.path.insert(0, str(ROOT / "table"))

import rows  # noqa: E402
from core_lines import core_of  # noqa: E402
from judging import table_of  # noqa: E402

from fields import Memory, Register, Relative, View  # noqa: E402

LEGACY = {0xF0: "F0", 0x66: "66", 0xF2: "F2", 0xF3: "F3"}


class Prefix(NamedTuple):
    """The legacy prefixes or the fields of VEX, and the bits W, R, X and B."""

    legacy: frozenset = frozenset()
    vex: Optional[tuple] = None
    has_rex: bool = False
    w: int = 0
    r: int = 0
    x: int = 0
    b: int = 0
    vvvv: int = 0


class Reading(NamedTuple):
    row: str
    reg: Optional[View]
    vvvv: Optional[int]
    place: Optional[object]
    immediate: Optional[int]
    length: int


def prefix_of(data):
    """The prefix, and what stands behind it."""
    legacy, at = [], 0
    while data[at] in LEGACY:
        legacy.append(LEGACY[data[at]])
        at += 1
    if len(set(legacy)) < len(legacy) or {"F2", "F3"} <= set(legacy):
        raise IndexError
    byte = data[at]
    if byte == 0xC5 and not legacy:
        second = data[at + 1]
        return Prefix(vex=(second & 3, 1, second >> 2 & 1), r=~second >> 7 & 1, vvvv=~second >> 3 & 15), data[at + 2:]
    if byte == 0xC4 and not legacy:
        second, third = data[at + 1], data[at + 2]
        return Prefix(vex=(third & 3, second & 31, third >> 2 & 1), w=third >> 7, r=~second >> 7 & 1, x=~second >> 6 & 1,
                      b=~second >> 5 & 1, vvvv=~third >> 3 & 15), data[at + 3:]
    if byte >> 4 == 4:
        return Prefix(frozenset(legacy), None, True, byte >> 3 & 1, byte >> 2 & 1, byte >> 1 & 1, byte & 1), data[at + 1:]
    return Prefix(frozenset(legacy)), data[at:]


def fits(code, prefix):
    if code.vex:
        is_so = prefix.vex == (code.vex.pp, code.vex.opcode_map, code.vex.l)
    else:
        is_so = prefix.vex is None and prefix.legacy == code.prefixes and (code.may_have_rex or not prefix.has_rex)
    return is_so and code.w in (None, prefix.w)


def signed(data):
    return int.from_bytes(data, "little", signed=True)


def view(prefix, number, is_8_bit):
    if is_8_bit and not prefix.has_rex and 4 <= number < 8:
        return View(number - 4, True)
    return View(number)


def tail_of(prefix, data):
    """The number in reg, the place with a number for a register, and what stands behind. (Intel SDM, volume 2, 2.1.5.)"""
    mode, reg, rm = data[0] >> 6, data[0] >> 3 & 7 | prefix.r << 3, data[0] & 7
    if mode == 3:
        return reg, rm | prefix.b << 3, data[1:]
    if rm == 5 and mode == 0:
        return reg, Relative(signed(data[1:5])), data[5:]
    base, index, factor, at = rm | prefix.b << 3, None, 1, 1
    if rm == 4:
        sib, at = data[1], 2
        number = sib >> 3 & 7 | prefix.x << 3
        index, factor = (None, 1) if number == 4 else (number, 1 << (sib >> 6))
        base = None if sib & 7 == 5 and mode == 0 else sib & 7 | prefix.b << 3
    width = 4 if mode == 2 or base is None else mode
    if len(data) < at + width:
        raise IndexError
    return reg, Memory(base, index, factor, signed(data[at:at + width])), data[at + width:]


def text_of(name):
    return (ROOT / "table" / name).read_text(encoding="utf-8")


def all_rows():
    return table_of(ROOT, text_of("instructions.txt"))[0].rows


def all_lines():
    """The rows and the lines of the core behind them, as the core numbers them."""
    return [*all_rows(), *core_of(text_of("core.txt"), all_rows())[0].lines]


class Reader:
    """By the rows of the table, or by other lines."""

    def __init__(self, lines=None):
        self.rows = lines or all_rows()

    def read(self, data):
        """The reading at the front of some bytes, or None."""
        try:
            prefix, behind = prefix_of(data)
            return next((self.read_row(row, prefix, data, behind) for row in self.rows if self.matches(row, prefix, behind)), None)
        except IndexError:
            return None

    def read_row_of(self, number, data):
        """The operands of bytes that are known to be a line."""
        prefix, behind = prefix_of(data)
        return self.read_row(self.rows[number], prefix, data, behind)

    def immediate_size(self, number):
        return self.rows[number].immediate.size // 8 if self.rows[number].immediate else 0

    def before_tail(self, number, data):
        """How many bytes stand before ModR/M."""
        return len(data) - len(prefix_of(data)[1]) + len(self.rows[number].code.opcode_bytes)

    def matches(self, row, prefix, behind):
        code = row.code
        opcode = bytes(code.opcode_bytes)
        if not fits(code, prefix) or not behind.startswith(opcode):
            return False
        return code.digit is None or behind[len(opcode)] >> 3 & 7 == code.digit

    def read_row(self, row, prefix, data, behind):
        rest = behind[len(row.code.opcode_bytes):]
        reg = place = immediate = None
        if row.code.has_modrm:
            number, place, rest = tail_of(prefix, rest)
            if row.code.digit is None:
                reg = view(prefix, number, rows.tail_field(row) == rows.TAIL_REGISTER_8)
            if isinstance(place, int):
                if rows.place_field(row) == rows.PLACE_MEMORY:
                    return None
                place = Register(view(prefix, place, rows.place_field(row) == rows.PLACE_REGISTER_8))
        has_vvvv = bool(row.code.vex) and len(row.registers) == 2
        if row.code.vex and not has_vvvv and prefix.vvvv:
            return None
        if row.immediate:
            width = row.immediate.size // 8
            if len(rest) < width:
                return None
            immediate = int.from_bytes(rest[:width], "little", signed=row.immediate.is_signed)
            rest = rest[width:]
        return Reading(row.name, reg, prefix.vvvv if has_vvvv else None, place, immediate, len(data) - len(rest))
