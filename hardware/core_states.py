"""The states in which an instruction of the core is run: those of states.py, with a stack for what goes by one, dividends
whose quotient fits, and floating-point numbers."""

import core_semantics
import floats
import semantics
from core import VECTOR_REGISTER
from core_semantics import RBP, Undefined
from fields import Memory, Register
from float_cases import some_double, some_float
from semantics import ALL_64, RAX, RCX, RDX, RSP, VECTOR
from states import CODE, CONDITION_FLAGS, MASKED, PAGE, RESERVED_AND_INTERRUPTS, STACK, LeftOut, Maker, canonical

CONDITIONAL = ("set", "conditional move")


class CoreMaker(Maker):
    def trials(self):
        if self.instruction.feature not in self.machine.features:
            self.left_out[f"this processor lacks {self.instruction.feature}: {self.instruction.row}"] += 1
            return []
        return [trial for label, variant in self.labels() for trial in self.tried(label, variant)]

    def runs(self):
        kind = self.instruction.kind
        return 8 if kind in CONDITIONAL else 4 if kind in ("shift", "double shift", "scalar", "div") else 3

    def addressing(self):
        """The registers of the address of its memory operand."""
        place = self.instruction.place
        return (place.base, place.index) if self.instruction.has_memory else ()

    def is_free(self, *numbers):
        """Whether registers may be set, since no address is made of them."""
        return not any(number in self.addressing() for number in numbers)

    def put_stack(self, state, has_memory):
        kind, place = self.instruction.kind, self.instruction.place
        if not self.instruction.uses_stack:
            return False
        at = RBP if kind == "leaveq" else RSP
        if has_memory and place.base == RSP:
            raise LeftOut("memory by the stack pointer, which it moves")
        state.general[at] = STACK + 8 * self.random.randrange(16, 500) + self.random.choice([0, 0, self.random.randrange(8)])
        if kind == "leaveq":
            self.top = at
        return False

    def put_flags(self, trial, variant):
        state, random = trial.state, self.random
        state.flags = RESERVED_AND_INTERRUPTS | random.choice([0, semantics.ADJUST]) | random.choice([0, semantics.DIRECTION])
        if self.instruction.kind in CONDITIONAL and trial.label == "run":
            state.flags |= CONDITION_FLAGS[variant]
        else:
            state.flags |= sum(random.choice([0, flag]) for flag in (1, 4, 0x40, 0x80, 0x800))

    def put_operands(self, trial, place, variant):
        state, random, instruction = trial.state, self.random, self.instruction
        kind, width = instruction.kind, instruction.width
        self.put_numbers(state)
        operand = random.randbytes(width)
        if kind in ("scalar", "ordered", "to integer", "precision", "packed"):
            operand = self.some_number()
        if kind == "cmpxchg" and variant == 0:
            operand = (state.general[RAX] & semantics.mask(width)).to_bytes(width, "little")
        if kind == "cmpxchg16b" and variant == 0:
            operand = state.general[RAX].to_bytes(8, "little") + state.general[RDX].to_bytes(8, "little")
        if isinstance(place, Register) and kind in ("scalar", "ordered", "to integer", "precision", "packed"):
            at = VECTOR * place.view.number
            state.vectors = state.vectors[:at] + operand + state.vectors[at + width:]
        if instruction.operation.form[-1:] == "c" and self.is_free(RCX):
            state.general[RCX] = state.general[RCX] & ~0xFF | random.choice([0, 1, random.randrange(64), random.randrange(256)])
        if kind == "bit" and instruction.operation.form == "mr" and instruction.has_memory and self.is_free(instruction.reg.number):
            state.general[instruction.reg.number] = random.randrange(8 * width)
        if kind == "div":
            self.put_dividend(state, place, operand)
        return operand

    def put_dividend(self, state, place, operand):
        """One whose quotient mostly fits."""
        random, width = self.random, self.instruction.width
        if random.random() < 0.25 or not self.is_free(RAX, RDX) or isinstance(place, Register) and place.view.number in (RAX, RDX):
            return
        divisor = int.from_bytes(operand, "little")
        if isinstance(place, Register):
            divisor = semantics.value_of(state.general, place.view, width)
        is_signed = self.instruction.operation.name == "idiv"
        if is_signed:
            divisor = core_semantics.signed(divisor, width)
        if divisor == 0:
            return
        quotient = random.getrandbits(8 * width - 1)
        rest = random.randrange(abs(divisor))
        dividend = quotient * divisor + (rest if divisor > 0 or not is_signed else -rest)
        if is_signed and random.random() < 0.5:
            dividend = -dividend
        dividend &= semantics.mask(2 * width)
        if width == 1:
            semantics.set_value(state.general, semantics.ACCUMULATOR, 2, dividend)
        else:
            for number, part in ((RAX, dividend), (RDX, dividend >> 8 * width)):
                low = semantics.mask(width)
                state.general[number] = state.general[number] & ~low & ALL_64 | part & low

    def some_number(self):
        """Of the size of the place, for what works with numbers."""
        random, instruction = self.random, self.instruction
        name, width = instruction.operation.name, instruction.width
        if name in ("dq2pd", "dq2ps"):
            return b"".join(random.choice([0, 1, 2**31, 2**31 - 1, 2**32 - 1, random.getrandbits(32), random.getrandbits(25)])
                            .to_bytes(4, "little") for _ in range(width // 4))
        lane = 4 if width == 4 or name in ("ps2pd", "tps2dq") else 8
        return b"".join(self.some_lane(lane).to_bytes(lane, "little") for _ in range(width // lane))

    def some_lane(self, lane):
        random = self.random
        if lane == 8:
            return some_double(random) if random.random() < 0.5 else some_float(random, 8)
        if random.random() < 0.4:  # about the limits of integers of 32 and of 64 bits
            exponent = random.choice([-2, -1, 0, 1, 5, 20, 22, 23, 24, 29, 30, 31, 32, 61, 62, 63, 64])
            return random.getrandbits(1) << 31 | exponent + 127 << 23 | random.choice([0, 1, (1 << 23) - 1, random.getrandbits(23)])
        return some_float(random, 4)

    def put_numbers(self, state):
        """Vector registers and MXCSR."""
        random, instruction = self.random, self.instruction
        state.mxcsr, vectors = MASKED, bytearray(random.randbytes(16 * VECTOR))
        if instruction.kind in VECTOR_REGISTER or instruction.kind == "to integer":
            state.mxcsr |= random.getrandbits(2) << 13
            state.mxcsr |= floats.DENORMALS_ARE_ZEROS if random.random() < 0.2 else 0
            state.mxcsr |= floats.FLUSH_TO_ZERO if random.random() < 0.2 else 0
            lane = 4 if instruction.width == 4 else 8
            for at in range(0, 16 * VECTOR, VECTOR):
                vectors[at:at + 16] = b"".join(self.some_lane(lane).to_bytes(lane, "little") for _ in range(16 // lane))
        there = self.machine.vector_bytes
        for at in range(0, 16 * VECTOR, VECTOR):
            vectors[at + there:at + VECTOR] = bytes(VECTOR - there)
        state.vectors = bytes(vectors)

    def put_memory(self, trial, place, operand, has_operand, is_mapped):
        state, kind = trial.state, self.instruction.kind
        if self.instruction.uses_stack and trial.label != "cut":
            at = state.general[RBP if kind == "leaveq" else RSP]
            if self.instruction.pushes:
                trial.pokes.append((at - 8 & ALL_64, self.random.randbytes(8)))
            else:
                top = canonical(self.random) if kind == "retq" else self.random.getrandbits(64)
                trial.pokes.append((at, top.to_bytes(8, "little")))
        if has_operand:
            address = semantics.address_of(place, state.general, 0)
            trial.pokes.append((address, operand))
        for address, data in [*trial.pokes, (state.rip, trial.shown(self.case.code))]:
            for at, byte in enumerate(data):
                state.memory[address + at & ALL_64] = byte

    def expected(self, trial, place, is_mapped):
        state = trial.state
        if trial.label == "cut":
            trial.follow = b""
            return semantics.faulted(state, "page fault", CODE + PAGE, (1,))
        try:
            outcome = core_semantics.executed(self.instruction, state, is_mapped, trial.label == "read only")
        except Undefined as undefined:
            raise LeftOut(str(undefined)) from None
        return outcome


def trials_of(machine, case, random, left_out):
    return CoreMaker(machine, case, random, left_out).trials()
