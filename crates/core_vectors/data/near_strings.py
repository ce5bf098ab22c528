"""Strings near those that the lines of the core read: each bit of the prefixes turned, each prefix more and less, each other
digit."""

import random
from typing import NamedTuple, Optional

# The legacy prefixes. (Intel SDM, volume 2, 2.1.1.)
OPERAND_SIZE, REPNE, REP, LOCK = 0x66, 0xF2, 0xF3, 0xF0
SEGMENTS = (0x2E, 0x36, 0x3E, 0x26, 0x64, 0x65)
ADDRESS_SIZE = 0x67
GROUPS = (OPERAND_SIZE, REPNE, REP, LOCK)
PREFIXES = (*GROUPS, *SEGMENTS, ADDRESS_SIZE)
# A string that has no REX byte gets one of these; REX alone, and each of its bits.
REX = (0x40, 0x41, 0x42, 0x44, 0x48)
LEAST, ENOUGH = 80, 90


class Parts(NamedTuple):
    """A string by its parts. `rex` is the REX byte right before the opcode; of one that a prefix follows `legacy` has it."""

    legacy: bytes
    rex: Optional[int]
    vex: bytes
    rest: bytes

    def joined(self):
        return self.legacy + (b"" if self.rex is None else bytes([self.rex])) + self.vex + self.rest


def is_rex(byte):
    return byte >> 4 == 4


def parts_of(string):
    """(Intel SDM, volume 2, 2.1.1, 2.2.1 and 2.3.5.)"""
    at = 0
    while at < len(string) and (string[at] in PREFIXES or is_rex(string[at])):
        at += 1
    rex = string[at - 1] if at and is_rex(string[at - 1]) else None
    legacy = string[:at] if rex is None else string[:at - 1]
    size = {0xC5: 2, 0xC4: 3}.get(string[at], 0) if at < len(string) else 0
    return Parts(legacy, rex, string[at:at + size], string[at + size:])


def without(string, at):
    return string[:at] + string[at + 1:]


def with_prefixes(parts):
    """One legacy prefix more, before all, behind the other ones, and behind REX, which that ends; or one less."""
    whole = parts.joined()
    for prefix in PREFIXES:
        more = bytes([prefix])
        yield more + whole
        if parts.legacy:
            yield parts._replace(legacy=parts.legacy + more).joined()
        if parts.rex is not None:
            yield parts.legacy + bytes([parts.rex]) + more + parts.vex + parts.rest
    for at in range(len(parts.legacy)):
        yield without(whole, at)
        for other in GROUPS:
            yield parts._replace(legacy=parts.legacy[:at] + bytes([other]) + parts.legacy[at + 1:]).joined()


def with_rex(parts):
    if parts.rex is None:
        for byte in REX:
            yield parts._replace(rex=byte).joined()
        return
    yield parts._replace(rex=None).joined()
    for bit in range(4):
        yield parts._replace(rex=parts.rex ^ 1 << bit).joined()


def with_vex(parts):
    """Each bit behind C4 or C5, and W of the form that has it."""
    for at in range(1, len(parts.vex)):
        for bit in range(8):
            turned = bytearray(parts.vex)
            turned[at] ^= 1 << bit
            yield parts._replace(vex=bytes(turned)).joined()
    if len(parts.vex) == 2:
        longer = bytes([0xC4, parts.vex[1] & 0x80 | 0x61, parts.vex[1] & 0x7F])
        for flipped in (0, 0x80):
            yield parts._replace(vex=longer[:2] + bytes([longer[2] ^ flipped])).joined()


def with_digit(parts, opcode_bytes):
    for digit in range(1, 8):
        rest = bytearray(parts.rest)
        rest[opcode_bytes] ^= digit << 3
        yield parts._replace(rest=bytes(rest)).joined()


def changes(string, opcode_bytes):
    """All strings with one change. `opcode_bytes` is how many stand before the digit, of lines that have one."""
    parts = parts_of(string)
    yield from with_prefixes(parts)
    yield from with_rex(parts)
    yield from with_vex(parts)
    if opcode_bytes:
        yield from with_digit(parts, opcode_bytes)


def near(rng, bases, opcode_bytes, seen):
    """So many strings of a line, from as many of its bases as it takes. Where one change of each is too few, a second one is
    made. Those of `seen` stand elsewhere already."""
    found = {}

    def put(string):
        if string not in seen and len(string) <= 15:
            found.setdefault(string)

    for base in bases:
        put(base)
        for string in changes(base, opcode_bytes):
            put(string)
        if len(found) >= ENOUGH:
            return list(found)
    once = list(found)
    for _ in range(100 * ENOUGH):
        put(rng.choice(list(changes(rng.choice(once), opcode_bytes))))
        if len(found) >= ENOUGH:
            break
    return list(found)


def ordered(rng, bases):
    """The bases of a line by chance, those first that have REX or not, and a register in ModR/M or not, as none before has."""
    found = list(dict.fromkeys(bases))
    rng.shuffle(found)
    kinds = [(parts_of(string).rex is None, any(byte >= 0xC0 for byte in parts_of(string).rest[1:3])) for string in found]
    return sorted(found, key=lambda string: kinds.index(kinds[found.index(string)]) != found.index(string))
