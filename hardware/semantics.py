"""What an instruction does to registers, flags and memory, after Intel's manual (SDM, volume 2, chapters 3 to 5), from its
fields alone."""

from dataclasses import dataclass, field

import floats
from fields import CONDITIONS, Register, Relative, View

ALL_64 = (1 << 64) - 1
# Bits of RFLAGS. (Intel SDM, volume 1, 3.4.3.)
CARRY, PARITY, ADJUST, ZERO, SIGN, DIRECTION, OVERFLOW = 1, 4, 0x10, 0x40, 0x80, 0x400, 0x800
ARITHMETIC = CARRY | PARITY | ADJUST | ZERO | SIGN | OVERFLOW
FLAGS = ARITHMETIC | DIRECTION

RAX, RCX, RDX, RBX, RSP = range(5)
ACCUMULATOR = View(RAX)
VECTOR = 64


@dataclass
class State:
    """What stands before an instruction: general registers, RIP, flags, MXCSR, the vector registers of 64 bytes each, and
    the bytes of memory that are known."""

    general: list
    rip: int = 0
    flags: int = 0
    mxcsr: int = 0
    vectors: bytes = b""
    memory: dict = field(default_factory=dict)


@dataclass
class Outcome:
    """What stands behind it. The event is `done`, `page fault` at an address, with one of some codes of the system's,
    `protection` or `not an instruction`; where it isn't `done` all is as it was."""

    event: str
    general: list
    rip: int
    flags: int
    defined: int
    mxcsr: int
    vectors: bytes
    writes: dict
    address: int = 0
    codes: tuple = ()


def outcome_of(state):
    return Outcome("done", list(state.general), state.rip, state.flags, FLAGS, state.mxcsr, state.vectors, {})


def faulted(state, event, address, codes):
    outcome = outcome_of(state)
    outcome.event, outcome.address, outcome.codes = event, address, codes
    return outcome


def mask(width):
    return (1 << 8 * width) - 1


def value_of(general, view, width):
    if view.is_high:
        return general[view.number] >> 8 & 0xFF
    return general[view.number] & mask(width)


def set_value(general, view, width, value):
    """Of four bytes the upper half becomes 0; of one or two the rest stays. (Intel SDM, volume 1, 3.4.1.1.)"""
    old = general[view.number]
    if view.is_high:
        general[view.number] = old & ~0xFF00 & ALL_64 | (value & 0xFF) << 8
    elif width >= 4:
        general[view.number] = value & mask(width)
    else:
        general[view.number] = old & ~mask(width) & ALL_64 | value & mask(width)


def address_of(place, general, end):
    """(Intel SDM, volume 1, 3.7.5.)"""
    if isinstance(place, Relative):
        return end + place.displacement & ALL_64
    base = 0 if place.base is None else general[place.base]
    index = 0 if place.index is None else general[place.index] * place.factor
    return base + index + place.displacement & ALL_64


def result_flags(result, width):
    sign = SIGN if result >> 8 * width - 1 & 1 else 0
    parity = PARITY if bin(result & 0xFF).count("1") % 2 == 0 else 0
    return sign | (0 if result else ZERO) | parity


def added(first, second, carry, width):
    total = first + second + carry
    result = total & mask(width)
    flags = result_flags(result, width) | (CARRY if total > mask(width) else 0)
    flags |= ADJUST if (first & 15) + (second & 15) + carry > 15 else 0
    if ~(first ^ second) & (first ^ result) & 1 << 8 * width - 1:
        flags |= OVERFLOW
    return result, flags


def subtracted(first, second, borrow, width):
    result = first - second - borrow & mask(width)
    flags = result_flags(result, width) | (CARRY if first < second + borrow else 0)
    flags |= ADJUST if (first & 15) < (second & 15) + borrow else 0
    if (first ^ second) & (first ^ result) & 1 << 8 * width - 1:
        flags |= OVERFLOW
    return result, flags


def combined(name, first, second, carry, width):
    """The result of an arithmetic operation, its flags, and the flags that stay undefined."""
    if name in ("add", "adc"):
        return *added(first, second, carry if name == "adc" else 0, width), 0
    if name in ("sub", "sbb"):
        return *subtracted(first, second, carry if name == "sbb" else 0, width), 0
    result = first | second if name == "or" else first & second if name == "and" else first ^ second
    return result, result_flags(result, width), ADJUST


def shifted(name, value, width):
    """A value shifted by one: the result, the carry and the overflow."""
    bits = 8 * width
    top = value >> bits - 1
    if name == "rol":
        result = value << 1 & mask(width) | top
        return result, result & 1, (result >> bits - 1) ^ (result & 1)
    if name == "ror":
        result = value >> 1 | (value & 1) << bits - 1
        return result, value & 1, (result >> bits - 1) ^ (result >> bits - 2 & 1)
    if name == "shl":
        result = value << 1 & mask(width)
        return result, top, (result >> bits - 1) ^ top
    if name == "shr":
        return value >> 1, value & 1, top
    return value >> 1 | top << bits - 1, value & 1, 0


def holds(condition, flags):
    """Whether a condition holds, by its name."""
    number = CONDITIONS.index(condition)
    overflow, carry, zero = (bool(flags & flag) for flag in (OVERFLOW, CARRY, ZERO))
    sign, parity = bool(flags & SIGN), bool(flags & PARITY)
    less = sign != overflow
    return (overflow, carry, zero, carry or zero, sign, parity, less, zero or less)[number >> 1] != bool(number & 1)


class Run:
    """One instruction, run in a state."""

    def __init__(self, instruction, state, address):
        self.instruction, self.state, self.address = instruction, state, address
        self.outcome = outcome_of(state)
        self.width = instruction.width
        self.end = state.rip + instruction.length & ALL_64
        self.outcome.rip = self.end

    def load(self):
        return int.from_bytes(bytes(self.state.memory[self.address + place & ALL_64] for place in range(self.width)), "little")

    def store(self, value, address=None, width=None):
        address = self.address if address is None else address
        for place, byte in enumerate(value.to_bytes(width or self.width, "little")):
            self.outcome.writes[address + place & ALL_64] = byte

    def value(self):
        """That of the place."""
        if self.address is not None:
            return self.load()
        return value_of(self.state.general, self.instruction.place.view, self.width)

    def set_value(self, value):
        if self.address is not None:
            self.store(value)
        else:
            set_value(self.outcome.general, self.instruction.place.view, self.width, value)

    def register(self):
        return value_of(self.state.general, self.instruction.reg, self.width)

    def set_register(self, value):
        set_value(self.outcome.general, self.instruction.reg, self.width, value)

    def set_flags(self, flags, written=ARITHMETIC, undefined=0):
        self.outcome.flags = self.state.flags & ~(written | undefined) | flags
        self.outcome.defined = FLAGS & ~undefined

    def jump(self, target):
        self.outcome.rip = target & ALL_64

    def push(self, value):
        top = self.outcome.general[RSP] - 8 & ALL_64
        self.outcome.general[RSP] = top
        self.store(value, top, 8)

    def arithmetic(self):
        first = self.load()
        second = self.register() if self.instruction.reg else self.instruction.immediate & mask(self.width)
        carry = self.state.flags & CARRY
        result, flags, undefined = combined(self.instruction.operation.name, first, second, carry, self.width)
        self.store(result)
        self.set_flags(flags, undefined=undefined)

    def and_al(self):
        result = value_of(self.state.general, ACCUMULATOR, 1) & self.instruction.immediate & 0xFF
        set_value(self.outcome.general, ACCUMULATOR, 1, result)
        self.set_flags(result_flags(result, 1), undefined=ADJUST)

    def xadd(self):
        old = self.load()
        result, flags = added(old, self.register(), 0, self.width)
        self.set_flags(flags)
        self.set_register(old)
        self.store(result)

    def cmpxchg(self):
        old, accumulator = self.load(), value_of(self.state.general, ACCUMULATOR, self.width)
        self.set_flags(subtracted(accumulator, old, 0, self.width)[1])
        if accumulator == old:
            self.store(self.register())
        else:
            set_value(self.outcome.general, ACCUMULATOR, self.width, old)

    def cmpxchg16b(self):
        general, old = self.state.general, self.load()
        is_equal = old == general[RDX] << 64 | general[RAX]
        self.set_flags(ZERO if is_equal else 0, written=ZERO)
        if is_equal:
            self.store(general[RCX] << 64 | general[RBX])
        else:
            self.outcome.general[RDX], self.outcome.general[RAX] = old >> 64, old & ALL_64

    def xchg(self):
        old = self.load()
        self.store(self.register())
        self.set_register(old)

    def shift(self):
        name = self.instruction.operation.name
        result, carry, overflow = shifted(name, self.value(), self.width)
        flags = (CARRY if carry else 0) | (OVERFLOW if overflow else 0)
        if name in ("rol", "ror"):
            self.set_flags(flags, written=CARRY | OVERFLOW)
        else:
            self.set_flags(flags | result_flags(result, self.width), undefined=ADJUST)
        self.set_value(result)

    def far(self):
        self.jump(self.value())
        if self.instruction.pushes:
            self.push(self.end)

    def near(self):
        self.jump(self.end + self.instruction.immediate)
        if self.instruction.pushes:
            self.push(self.end)

    def branch(self):
        if holds(self.instruction.operation.name, self.state.flags):
            self.jump(self.end + self.instruction.immediate)

    def mulx(self):
        product = self.value() * value_of(self.state.general, View(RDX), self.width)
        set_value(self.outcome.general, View(self.instruction.vvvv), self.width, product & mask(self.width))
        self.set_register(product >> 8 * self.width)

    def vector_of(self, number):
        return int.from_bytes(self.state.vectors[VECTOR * number:VECTOR * number + 16], "little")

    def vector_value(self):
        if self.address is not None:
            return self.load()
        return self.vector_of(self.instruction.place.view.number)

    def set_vector(self, value, exceptions):
        """VEX sets what is above bit 127 to 0; without it that stays. (Intel SDM, volume 1, 14.1.2.)"""
        start = VECTOR * self.instruction.reg.number
        old = self.state.vectors
        above = bytes(VECTOR - 16) if self.instruction.is_vex else old[start + 16:start + VECTOR]
        self.outcome.vectors = old[:start] + value.to_bytes(16, "little") + above + old[start + VECTOR:]
        self.outcome.mxcsr = self.state.mxcsr | exceptions

    def andps(self):
        self.set_vector(self.vector_of(self.instruction.reg.number) & self.vector_value(), 0)

    def compare(self):
        name, is_vex = self.instruction.operation.name, self.instruction.is_vex
        first = self.vector_of(self.instruction.vvvv if is_vex else self.instruction.reg.number)
        second, width = self.vector_value(), 4 if name[1] == "s" else 8
        predicate = self.instruction.immediate & (31 if is_vex else 7)
        result, exceptions = first, 0
        for lane in range(16 // width if name[0] == "p" else 1):
            low = 8 * width * lane
            answer, more = floats.compare(first >> low & mask(width), second >> low & mask(width), width, predicate,
                                          self.state.mxcsr)
            result = result & ~(mask(width) << low) | answer << low
            exceptions |= more
        self.set_vector(result, exceptions)

    def convert(self):
        to = floats.to_single if self.instruction.operation.name == "vcvtpd2ps" else floats.to_integer
        result, exceptions, source = 0, 0, self.vector_value()
        for lane in range(2):
            answer, more = to(source >> 64 * lane & ALL_64, self.state.mxcsr)
            result |= answer << 32 * lane
            exceptions |= more
        self.set_vector(result, exceptions)


Run.BY_KIND = {
    "arithmetic": Run.arithmetic, "and al": Run.and_al, "xadd": Run.xadd, "cmpxchg": Run.cmpxchg,
    "cmpxchg16b": Run.cmpxchg16b, "xchg": Run.xchg, "shift": Run.shift, "far": Run.far, "near": Run.near,
    "branch": Run.branch, "mulx": Run.mulx, "andps": Run.andps, "compare": Run.compare, "vcompare": Run.compare,
    "convert": Run.convert,
}


def executed(instruction, state, is_mapped=True, is_read_only=False):
    """What comes of it, by whether its memory operand is mapped, and whether it may only be read."""
    end = state.rip + instruction.length & ALL_64
    address = address_of(instruction.place, state.general, end) if instruction.has_memory else None
    if address is not None:
        if address % instruction.alignment:
            return faulted(state, "protection", 0, ())
        if not is_mapped:
            return faulted(state, "page fault", address, (1, 2))
        if is_read_only and instruction.writes_memory:
            return faulted(state, "page fault", address, (2,))
    run = Run(instruction, state, address)
    if instruction.kind != "nop":
        Run.BY_KIND[instruction.kind](run)
    return run.outcome
