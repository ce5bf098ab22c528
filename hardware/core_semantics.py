"""What a line of the core does to registers, flags and memory, after Intel's manual (SDM, volume 2, chapters 3 to 5), from its
name and operands alone."""

import core_floats as exact
from core import VECTOR_PLACE
from fields import View
from semantics import ACCUMULATOR, ADJUST, ALL_64, ARITHMETIC, CARRY, OVERFLOW, PARITY, RAX, RCX, RDX, RSP, SIGN, VECTOR, \
    ZERO, Run, address_of, combined, faulted, holds, mask, result_flags, set_value, subtracted, value_of

RBP = 5


class Undefined(Exception):
    """What the manual leaves open, so that nothing is to be seen."""


def signed(value, width):
    return value - (1 << 8 * width) if value >> 8 * width - 1 & 1 else value


def rotated(name, value, width, count):
    """The result and the carry."""
    bits = 8 * width
    count %= bits
    turned = count if name == "rol" else bits - count
    result = (value << turned | value >> bits - turned) & mask(width)
    return result, result & 1 if name == "rol" else result >> bits - 1


def shifted(name, value, width, count):
    """The result, and the carry or None where that is undefined."""
    bits = 8 * width
    if name == "shl":
        return value << count & mask(width), value << count >> bits & 1 if count < bits else None
    if name == "shr":
        return value >> count, value >> count - 1 & 1 if count < bits else None
    number = signed(value, width)
    return number >> count & mask(width), number >> count - 1 & 1


class CoreRun(Run):
    """One instruction of the core, run in a state. `to` is how many bytes its register has, `width` its place."""

    def __init__(self, instruction, state, address):
        super().__init__(instruction, state, address)
        self.to, self.form, self.name = instruction.operation.to, instruction.operation.form, instruction.operation.name

    def register(self):
        return value_of(self.state.general, self.instruction.reg, self.to)

    def set_register(self, value):
        set_value(self.outcome.general, self.instruction.reg, self.to, value)

    def given(self):
        """The immediate, as long as the operand."""
        return self.instruction.immediate & mask(self.width)

    def count(self):
        """By how much is shifted."""
        given = self.state.general[RCX] if self.form[-1] == "c" else self.instruction.immediate
        return given & (63 if self.width == 8 else 31)

    def arithmetic(self):
        """The accumulator, the place or the register and the other, or the immediate."""
        if self.form == "i":
            first, second = value_of(self.state.general, ACCUMULATOR, self.width), self.given()
        elif self.form == "rm":
            first, second = self.register(), self.value()
        else:
            first, second = self.value(), self.register() if self.form == "mr" else self.given()
        name = {"cmp": "sub", "test": "and"}.get(self.name, self.name)
        result, flags, undefined = combined(name, first, second, self.state.flags & CARRY, self.width)
        self.set_flags(flags, undefined=undefined)
        if name != self.name:
            return
        if self.form == "i":
            set_value(self.outcome.general, ACCUMULATOR, self.width, result)
        elif self.form == "rm":
            self.set_register(result)
        else:
            self.set_value(result)

    def move(self):
        if self.form == "rm":
            self.set_register(self.value())
        else:
            self.set_value(self.register() if self.form == "mr" else self.given())

    def extend(self):
        value = self.value()
        self.set_register((signed(value, self.width) if self.name == "s" else value) & mask(self.to))

    def address_itself(self):
        place = address_of(self.instruction.place, self.state.general, self.end)
        self.set_register(place & mask(self.to))

    def halves(self, value):
        """Into the accumulator and rdx, or ah and al."""
        general, width = self.outcome.general, self.width
        if width == 1:
            set_value(general, ACCUMULATOR, 2, value)
            return
        set_value(general, View(RAX), width, value & mask(width))
        set_value(general, View(RDX), width, value >> 8 * width & mask(width))

    def mul(self):
        first, second = value_of(self.state.general, ACCUMULATOR, self.width), self.value()
        if self.name == "imul":
            product = signed(first, self.width) * signed(second, self.width)
            is_long = not -(1 << 8 * self.width - 1) <= product < 1 << 8 * self.width - 1
        else:
            product = first * second
            is_long = product > mask(self.width)
        self.halves(product & mask(2 * self.width))
        self.set_flags(CARRY | OVERFLOW if is_long else 0, undefined=ARITHMETIC & ~(CARRY | OVERFLOW))

    def div(self):
        general, width = self.state.general, self.width
        high = value_of(general, View(RAX, True), 1) if width == 1 else value_of(general, View(RDX), width)
        dividend, divisor = high << 8 * width | value_of(general, ACCUMULATOR, width), self.value()
        least, most = 0, mask(width)
        if self.name == "idiv":
            dividend, divisor = signed(dividend, 2 * width), signed(divisor, width)
            least, most = -(1 << 8 * width - 1), (1 << 8 * width - 1) - 1
        quotient = abs(dividend) // abs(divisor) * (1 if (dividend < 0) == (divisor < 0) else -1) if divisor else None
        if quotient is None or not least <= quotient <= most:
            self.outcome = faulted(self.state, "divide error", self.state.rip, (1,))
            return
        rest = dividend - quotient * divisor
        if width == 1:
            set_value(self.outcome.general, ACCUMULATOR, 2, (rest & 0xFF) << 8 | quotient & 0xFF)
        else:
            set_value(self.outcome.general, View(RAX), width, quotient & mask(width))
            set_value(self.outcome.general, View(RDX), width, rest & mask(width))
        self.set_flags(0, written=0, undefined=ARITHMETIC)

    def product(self):
        first = self.register() if self.form == "rm" else self.instruction.immediate
        product = signed(first & mask(self.width), self.width) * signed(self.value(), self.width)
        is_long = not -(1 << 8 * self.width - 1) <= product < 1 << 8 * self.width - 1
        self.set_register(product & mask(self.width))
        self.set_flags(CARRY | OVERFLOW if is_long else 0, undefined=ARITHMETIC & ~(CARRY | OVERFLOW))

    def neg(self):
        result, flags = subtracted(0, self.value(), 0, self.width)
        self.set_flags(flags)
        self.set_value(result)

    def invert(self):
        self.set_value(~self.value() & mask(self.width))

    def convert(self):
        general, (to, width) = self.outcome.general, {"cbtw": (RAX, 1), "cwtl": (RAX, 2), "cwtd": (RDX, 2), "cltd": (RDX, 4)}[self.name]
        value = signed(value_of(self.state.general, ACCUMULATOR, width), width)
        if to == RAX:
            set_value(general, ACCUMULATOR, 2 * width, value & mask(2 * width))
        else:
            set_value(general, View(RDX), width, value >> 8 * width & mask(width))

    def shift(self):
        count, value = self.count(), self.value()
        if count == 0:
            self.set_value(value)
            return
        bits = 8 * self.width
        undefined = 0 if count == 1 else OVERFLOW
        if self.name in ("rol", "ror"):
            result, carry = rotated(self.name, value, self.width, count)
            next_bit = result >> bits - 2 & 1
            overflow = result >> bits - 1 ^ (carry if self.name == "rol" else next_bit)
            self.set_flags(carry * CARRY | (overflow * OVERFLOW if count == 1 else 0), CARRY | OVERFLOW, undefined)
        else:
            result, carry = shifted(self.name, value, self.width, count)
            top = value >> bits - 1
            overflow = {"shl": result >> bits - 1 ^ (carry or 0), "shr": top, "sar": 0}[self.name]
            flags = result_flags(result, self.width) | (CARRY if carry else 0) | (overflow * OVERFLOW if count == 1 else 0)
            self.set_flags(flags, undefined=undefined | ADJUST | (CARRY if carry is None else 0))
        self.set_value(result)

    def double_shift(self):
        count, bits = self.count(), 8 * self.width
        if count > bits:
            raise Undefined("a double shift by more than the operand has")
        value = self.value()
        if count == 0:
            self.set_value(value)
            return
        both = value << bits | self.register()
        result = both << count >> bits & mask(self.width)
        carry = value >> bits - count & 1
        overflow = OVERFLOW if count == 1 and (result ^ value) >> bits - 1 else 0
        undefined = ADJUST | (0 if count == 1 else OVERFLOW)
        self.set_flags(result_flags(result, self.width) | carry * CARRY | overflow, undefined=undefined)
        self.set_value(result)

    def set_byte(self):
        self.set_value(int(holds(self.name, self.state.flags)))

    def conditional_move(self):
        value = self.value()
        self.set_register(value if holds(self.name, self.state.flags) else self.register())

    def push_value(self):
        value = self.value() if self.form == "m" else self.instruction.immediate & mask(self.width)
        top = self.state.general[RSP] - self.width & ALL_64
        self.outcome.general[RSP] = top
        self.store(value, top, self.width)

    def pop_from(self, at, width):
        return int.from_bytes(bytes(self.state.memory[at + place & ALL_64] for place in range(width)), "little")

    def pop(self):
        value = self.pop_from(self.state.general[RSP], self.width)
        self.outcome.general[RSP] = self.state.general[RSP] + self.width & ALL_64
        self.set_value(value)

    def retq(self):
        self.jump(self.pop_from(self.state.general[RSP], 8))
        self.outcome.general[RSP] = self.state.general[RSP] + 8 + (self.instruction.immediate or 0) & ALL_64

    def leaveq(self):
        at = self.state.general[RBP]
        self.outcome.general[RBP] = self.pop_from(at, 8)
        self.outcome.general[RSP] = at + 8 & ALL_64

    def ud2(self):
        self.outcome = faulted(self.state, "not an instruction", self.state.rip, (2,))

    def int3(self):
        self.outcome.event = "breakpoint"

    def hlt(self):
        self.outcome = faulted(self.state, "protection", 0, ())

    def scan(self):
        value, bits = self.value(), 8 * self.width
        if self.name == "popcnt":
            self.set_register(bin(value).count("1"))
            self.set_flags(0 if value else ZERO)
            return
        low = (value & -value).bit_length() - 1
        if self.name in ("bsf", "bsr"):
            if value == 0:
                raise Undefined("a scan of zero")
            self.set_register(low if self.name == "bsf" else value.bit_length() - 1)
            self.set_flags(0, undefined=ARITHMETIC & ~ZERO)
            return
        result = bits if value == 0 else low if self.name == "tzcnt" else bits - value.bit_length()
        self.set_register(result)
        self.set_flags((CARRY if value == 0 else 0) | (ZERO if result == 0 else 0), undefined=ARITHMETIC & ~(CARRY | ZERO))

    def bit(self):
        number = self.register() if self.form == "mr" else self.instruction.immediate
        taken = self.value() >> number % (8 * self.width) & 1
        self.set_flags(CARRY if taken else 0, CARRY, ARITHMETIC & ~(CARRY | ZERO))

    # Vectors.

    def lane(self):
        """The lowest lane of the register, as wide as the place."""
        return self.vector_of(self.instruction.reg.number) & mask(self.width)

    def other(self):
        """The place: memory, a vector register or a general one."""
        if self.address is not None:
            return self.load()
        if self.kind in VECTOR_PLACE:
            return self.vector_of(self.instruction.place.view.number) & mask(self.width)
        return value_of(self.state.general, self.instruction.place.view, self.width)

    @property
    def kind(self):
        return self.instruction.kind

    def put_vector(self, number, value, exceptions=0):
        start, old = VECTOR * number, self.state.vectors
        self.outcome.vectors = old[:start] + value.to_bytes(16, "little") + old[start + 16:]
        self.outcome.mxcsr = self.state.mxcsr | exceptions

    def put_lane(self, value, width, exceptions):
        """The rest of the register stays."""
        old = self.vector_of(self.instruction.reg.number)
        self.put_vector(self.instruction.reg.number, old & ~mask(width) | value, exceptions)

    def scalar(self):
        first, second, width, mxcsr = self.lane(), self.other(), self.width, self.state.mxcsr
        if self.name == "sqrt":
            value, exceptions = exact.root(second, width, mxcsr)
        elif self.name in ("min", "max"):
            value, exceptions = exact.extreme(self.name, first, second, width, mxcsr)
        else:
            value, exceptions = exact.combined(self.name, first, second, width, mxcsr)
        self.put_lane(value, width, exceptions)

    def ordered(self):
        (zero, parity, carry), exceptions = exact.ordered(self.lane(), self.other(), self.width, self.state.mxcsr)
        self.set_flags(zero * ZERO | parity * PARITY | carry * CARRY)
        self.outcome.mxcsr = self.state.mxcsr | exceptions

    def logic(self):
        first, second = self.vector_of(self.instruction.reg.number), self.other()
        result = {"and": first & second, "andn": ~first & second, "or": first | second, "xor": first ^ second}[self.name]
        self.put_vector(self.instruction.reg.number, result & mask(16))

    def vector_move(self):
        """What is read from memory, or from a general register, is alone in its register."""
        value = self.other() if self.form == "rm" else self.vector_of(self.instruction.reg.number) & mask(self.width)
        if self.form == "rm":
            self.put_vector(self.instruction.reg.number, value)
        elif self.address is not None:
            self.store(value)
        elif self.kind in VECTOR_PLACE:
            self.put_vector(self.instruction.place.view.number, value)
        else:
            set_value(self.outcome.general, self.instruction.place.view, self.width, value)

    def of_integer(self):
        width = 4 if self.name == "ss" else 8
        self.put_lane(*self.with_width(exact.of_integer(self.other(), self.width, width, self.state.mxcsr), width))

    @staticmethod
    def with_width(answer, width):
        return answer[0], width, answer[1]

    def to_integer(self):
        value, exceptions = exact.to_integer(self.other(), self.width, self.to, self.state.mxcsr, self.name == "t")
        self.set_register(value)
        self.outcome.mxcsr = self.state.mxcsr | exceptions

    def precision(self):
        width = 12 - self.width
        self.put_lane(*self.with_width(exact.other_precision(self.other(), self.width, self.state.mxcsr), width))

    def packed(self):
        source, mxcsr, result, exceptions = self.other(), self.state.mxcsr, 0, 0
        lanes, width, to, convert = {
            "ps2pd": (2, 4, 8, lambda lane: exact.other_precision(lane, 4, mxcsr)),
            "pd2ps": (2, 8, 4, lambda lane: exact.other_precision(lane, 8, mxcsr)),
            "dq2pd": (2, 4, 8, lambda lane: exact.of_integer(lane, 4, 8, mxcsr)),
            "dq2ps": (4, 4, 4, lambda lane: exact.of_integer(lane, 4, 4, mxcsr)),
            "tps2dq": (4, 4, 4, lambda lane: exact.to_integer(lane, 4, 4, mxcsr, True)),
            "tpd2dq": (2, 8, 4, lambda lane: exact.to_integer(lane, 8, 4, mxcsr, True)),
        }[self.name]
        for number in range(lanes):
            value, more = convert(source >> 8 * width * number & mask(width))
            result |= value << 8 * to * number
            exceptions |= more
        self.put_vector(self.instruction.reg.number, result, exceptions)


CoreRun.BY_KIND = {
    "arithmetic": CoreRun.arithmetic, "move": CoreRun.move, "extend": CoreRun.extend, "address": CoreRun.address_itself,
    "mul": CoreRun.mul, "div": CoreRun.div, "product": CoreRun.product, "neg": CoreRun.neg, "not": CoreRun.invert,
    "convert": CoreRun.convert, "shift": CoreRun.shift, "double shift": CoreRun.double_shift, "set": CoreRun.set_byte,
    "conditional move": CoreRun.conditional_move, "push": CoreRun.push_value, "pop": CoreRun.pop, "retq": CoreRun.retq,
    "leaveq": CoreRun.leaveq, "ud2": CoreRun.ud2, "int3": CoreRun.int3, "hlt": CoreRun.hlt, "scan": CoreRun.scan,
    "bit": CoreRun.bit, "xadd": Run.xadd, "cmpxchg": Run.cmpxchg, "cmpxchg16b": Run.cmpxchg16b, "scalar": CoreRun.scalar,
    "ordered": CoreRun.ordered, "logic": CoreRun.logic, "scalar move": CoreRun.vector_move,
    "aligned move": CoreRun.vector_move, "vector move": CoreRun.vector_move, "word move": CoreRun.vector_move,
    "of integer": CoreRun.of_integer, "to integer": CoreRun.to_integer, "precision": CoreRun.precision,
    "packed": CoreRun.packed,
}


def names_bit_beside(instruction, state):
    """Whether a register numbers a bit that isn't one of the memory operand itself."""
    if instruction.kind != "bit" or instruction.operation.form != "mr":
        return False
    number = signed(value_of(state.general, instruction.reg, instruction.width), instruction.width)
    return not 0 <= number < 8 * instruction.width


def executed(instruction, state, is_mapped=True, is_read_only=False):
    """What comes of it, by whether its memory operand is mapped, and whether it may only be read."""
    general = list(state.general)
    if instruction.kind == "pop" and instruction.has_memory:
        general[RSP] += instruction.width  # the address is that after the pop
    address = address_of(instruction.place, general, 0) if instruction.has_memory else None
    if address is not None:
        if names_bit_beside(instruction, state):
            raise Undefined("a bit beside the operand")
        if address % instruction.alignment:
            return faulted(state, "protection", 0, ())
        if not is_mapped:
            return faulted(state, "page fault", address, (1, 2))
        if is_read_only and instruction.writes_memory:
            return faulted(state, "page fault", address, (2,))
    run = CoreRun(instruction, state, address)
    CoreRun.BY_KIND[instruction.kind](run)
    return run.outcome
