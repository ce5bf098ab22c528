"""The states in which the instruction of a case is run, and what has to come of it in each.

  run      its memory operand is on a page that is mapped
  fault    it isn't: the page fault has to be at the operand's address
  read only    it is on a page that can't be written: what writes faults there, what reads doesn't
  edge     its last byte is the last of a page, and none follows: it needs no byte more
  edge fault   both, of an operand at an address where nothing can be mapped
  cut      all but its last byte are there: the processor has to ask for one more
  patched, patched edge, patched fault   a relative field, patched at its place as `finish` does it, names a far page
  lock     what stands before ModR/M, and a register for the memory operand: not an instruction, since it is locked
"""

import struct

import floats
import semantics
from float_cases import RELATIONS, SIGNALLING, pair, some_double, some_float
from fields import Memory, Register, Relative, immediate_bytes
from semantics import ALL_64, CARRY, OVERFLOW, PARITY, RSP, SIGN, VECTOR, ZERO, State

CODE, DATA, READ_ONLY, STACK = 0x311100000000, 0x311111110000, 0x312345677000, 0x322222222000
STUB = 0x600000000000
PAGE = 4096
CODE_PAGE, DATA_PAGE, STACK_PAGE = range(3)

REQUEST = struct.Struct("<4Q16QQII1024s" + "QI36s" * 4)

# Flags that tell the sixteen conditions apart.
CONDITION_FLAGS = (0, CARRY, ZERO, SIGN, OVERFLOW, PARITY, SIGN | OVERFLOW, CARRY | ZERO | SIGN | OVERFLOW | PARITY)
RESERVED_AND_INTERRUPTS = 0x202
MASKED = 0x1F80


class LeftOut(Exception):
    """A state that can't be had on this machine, and why."""


class Machine:
    """What this processor has."""

    def __init__(self):
        with open("/proc/cpuinfo", encoding="utf-8") as file:
            self.features = set(next(line for line in file if line.startswith("flags")).split())
        self.vector_bytes = 64 if "avx512f" in self.features else 32 if "avx" in self.features else 16
        # whether a locked operand may go across a line of the cache
        self.splits_locks = "split_lock_detect" not in self.features

    def lacks(self, instruction):
        wanted = "cx16" if instruction.kind == "cmpxchg16b" else "bmi2" if instruction.kind == "mulx" else \
            "avx" if instruction.is_vex else "fpu"
        return None if wanted in self.features else wanted


def canonical(random):
    """An address of the lower half that is far from what is mapped."""
    while True:
        address = random.randrange(0x10000, 0x7FFFFFFFE000)
        if all(abs(address - page) > 2 * PAGE for page in (CODE, DATA, READ_ONLY, STACK, STUB)):
            return address


def congruence(place, keeps_stack):
    """What a form asks of the address that it names: a modulus and a rest."""
    if place.base is None and place.index is not None:
        return place.factor, place.displacement % place.factor
    if place.base is not None and place.base == place.index and place.factor == 1:
        return 2, place.displacement % 2
    return (8, place.displacement % 8) if keeps_stack else (1, 0)


def solve(place, address, general, random, keeps_stack):
    """Sets base and index so that the place names the address; whether that can be."""
    base, index, factor = place.base, place.index, place.factor
    wanted = address - place.displacement & ALL_64
    if base is None and index is None:
        return wanted == 0
    if base is None or keeps_stack and base == RSP and index is not None:
        wanted = wanted if base is None else wanted - general[RSP] & ALL_64
        if wanted % factor:
            return False
        general[index] = wanted // factor + random.randrange(factor) * ((1 << 64) // factor) & ALL_64
    elif index is None:
        general[base] = wanted
    elif base != index:
        general[base] = wanted - factor * general[index] & ALL_64
    elif factor == 1:
        if wanted & 1:
            return False
        general[base] = wanted >> 1 | random.getrandbits(1) << 63
    else:
        general[base] = wanted * pow(1 + factor, -1, 1 << 64) & ALL_64
    return True


class Trial:
    """A case in one state: what to ask of the stepper, and what should come of it."""

    def __init__(self, case, label):
        self.case, self.label = case, label
        self.pages = [CODE, DATA, STACK]
        self.pokes = []
        self.distance = None  # what is added to a relative field
        self.follow = b""
        self.state = self.expected = None

    def bytes_of(self, code):
        """What is put for these bytes of the instruction."""
        case = self.case
        if self.distance is not None:
            at = case.relative
            stored = int.from_bytes(code[at:at + 4], "little") + self.distance & 0xFFFFFFFF
            return code[:at] + stored.to_bytes(4, "little") + code[at + 4:]
        if self.label == "lock" and case.before_tail < len(code):
            if case.instruction.kind == "cmpxchg16b":  # its opcode takes no register even without lock; 01 C0 does
                return code[:case.before_tail - 2] + b"\x01\xc0"
            behind = code[len(code) - immediate_bytes(case.instruction.row):]
            return code[:case.before_tail] + bytes([code[case.before_tail] | 0xC0]) + behind
        return code

    def shown(self, code):
        return (self.bytes_of(code) + self.follow)[:20]

    def request(self, code):
        pokes = [*self.pokes, (self.state.rip, self.shown(code))]
        flat = [part for address, data in pokes for part in (address, len(data), data)]
        flat += [0, 0, b""] * (4 - len(pokes))
        state = self.state
        return REQUEST.pack(*self.pages, state.rip, *state.general, state.flags, state.mxcsr, len(pokes), state.vectors,
                            *flat)


class Maker:
    """Makes the trials of a case. What one trial had, another can have otherwise."""

    def __init__(self, machine, case, random, left_out):
        self.machine, self.case, self.random, self.left_out = machine, case, random, left_out
        self.instruction = case.instruction
        self.kept = {}

    def trials(self):
        missing = self.machine.lacks(self.instruction)
        if missing:
            self.left_out[f"this processor lacks {missing}: {self.instruction.row}"] += 1
            return []
        return [trial for label, variant in self.labels() for trial in self.tried(label, variant)]

    def runs(self):
        """In how many states it runs: so many that what it does is told from what others do."""
        kind, width = self.instruction.kind, self.instruction.width
        if kind in ("compare", "vcompare"):
            return 4 * self.lane_width() // width + 3
        return {"convert": 4, "branch": 8, "cmpxchg": 3, "cmpxchg16b": 3}.get(kind, 2)

    def labels(self):
        has_memory, is_relative = self.instruction.has_memory, self.case.relative is not None
        found = [("run", variant) for variant in range(self.runs())]
        found += [("fault", 0), ("read only", 0)] if has_memory else []
        found += [("patched edge" if is_relative else "edge", 0), ("cut", 0)]
        if is_relative:
            found += [("patched", variant) for variant in range(self.runs())] + [("patched fault", 0)]
        return found + ([("lock", 0)] if self.instruction.has_lock else [])

    def tried(self, label, variant):
        try:
            return [self.trial(label, variant)]
        except LeftOut as left:
            self.left_out[f"{label}: {left}"] += 1
            if label == "edge" and isinstance(self.instruction.place, Memory):
                return self.tried("edge fault", 0)
            return []

    def lane_width(self):
        return 4 if self.instruction.operation.name[1] == "s" else 8

    def fits(self, address):
        return address % self.instruction.alignment == 0 and self.in_line(address)

    def in_line(self, address):
        width = self.instruction.width
        return (not self.instruction.is_locked or address % 64 + width <= 64) and address % PAGE + width <= PAGE

    def trial(self, label, variant):
        instruction, random = self.instruction, self.random
        trial = Trial(self.case, label)
        trial.follow = random.randbytes(20)
        trial.state = state = State([random.getrandbits(64) for _ in range(16)])
        is_edge = "edge" in label
        state.rip = CODE + PAGE - instruction.length if is_edge else \
            CODE + PAGE - instruction.length + 1 if label == "cut" else CODE + random.randrange(64, 3968)
        place, is_mapped = instruction.place, "fault" not in label
        has_memory = instruction.has_memory and label not in ("cut", "lock")
        by_stack = self.put_stack(state, has_memory)
        if label.startswith("patched"):
            place = self.patched(trial, is_mapped)
        elif has_memory and isinstance(place, Relative):
            self.put_relative(trial, is_edge, is_mapped)
        elif has_memory:
            self.put_address(trial, is_mapped, by_stack)
        if instruction.kind == "far" and isinstance(place, Register) and \
                not (instruction.pushes and place.view.number == RSP):
            state.general[place.view.number] = canonical(random)
        self.put_flags(trial, variant)
        operand = self.put_operands(trial, place, variant)
        self.put_memory(trial, place, operand, is_mapped and has_memory, is_mapped)
        trial.expected = self.expected(trial, place, is_mapped)
        return trial

    def put_stack(self, state, has_memory):
        """Where a call pushes; whether its operand has the stack pointer as its base."""
        place = self.instruction.place
        by_stack = self.instruction.kind == "far" and self.instruction.pushes and has_memory and \
            isinstance(place, Memory) and place.base == RSP
        if self.instruction.pushes:
            state.general[RSP] = STACK + 8 * self.random.randrange(16, 500)
            if self.random.random() < 0.3 and not by_stack:
                state.general[RSP] += self.random.randrange(8)
        return by_stack

    def patched(self, trial, is_mapped):
        """A far page within four bytes of distance, and the place that names it. Of fields it is patched by the formula of
        `patched_field`, from the place that was told."""
        random, case, rip = self.random, self.case, trial.state.rip
        page = CODE + random.choice([PAGE * random.randrange(16, 0x7FFF0), -PAGE * random.randrange(16, 0x7FFF0)])
        if not is_mapped and page == DATA:
            page += PAGE
        target = page + random.randrange(0, PAGE - self.instruction.width)
        while not self.fits(target):
            target = page + random.randrange(0, PAGE - self.instruction.width)
        end = rip + self.instruction.length
        stored_from = rip + case.relative + 4 if case.is_noticed else end + self.instruction.place.displacement
        trial.distance = target - stored_from
        trial.pages[DATA_PAGE] = page if is_mapped else DATA
        return Relative(target - end)

    def put_relative(self, trial, is_edge, is_mapped):
        """A relative field that isn't patched names the code itself, which is writable."""
        state, length, width = trial.state, self.instruction.length, self.instruction.width
        if trial.label == "read only":
            raise LeftOut("relative operand, beside the code")
        address = 0
        for _ in range(400):
            address = state.rip + length + self.instruction.place.displacement
            if is_edge or self.fits(address):
                break
            state.rip = CODE + self.random.randrange(64, 3968)
        if not self.in_line(address):
            raise LeftOut("relative operand across a line or page")
        page = address & -PAGE
        if page == CODE:
            if not is_mapped:
                raise LeftOut("relative operand, beside the code")
            trial.pages[DATA_PAGE] = 0
            if address + width > state.rip:  # what follows the code may be the operand
                trial.follow = b""
        elif page == CODE + PAGE and is_edge:
            raise LeftOut("relative operand in the page behind the code")
        elif is_mapped:
            trial.pages[DATA_PAGE] = page

    def put_address(self, trial, is_mapped, by_stack):
        place = self.instruction.place
        if place.base is None and place.index is None:
            self.put_absolute(trial, place.displacement & ALL_64, is_mapped)
            return
        state, random = trial.state, self.random
        modulus, rest = congruence(place, by_stack and place.index is None)
        for attempt in range(3000):
            address = self.some_address(trial.label, is_mapped)
            if attempt < 2000:  # later: what can't be aligned
                address -= address % self.instruction.alignment
            if address % modulus != rest or not self.in_line(address):
                continue
            if by_stack and place.index is not None and is_mapped:
                state.general[RSP] = STACK + 8 * random.randrange(16, 500)
                state.general[RSP] += (address - place.displacement - state.general[RSP]) % place.factor
            if solve(place, address, state.general, random, by_stack and is_mapped):
                break
        else:
            raise LeftOut("no address")
        if by_stack and is_mapped:
            page = state.general[RSP] - 8 & -PAGE & ALL_64
            if page != state.general[RSP] - 1 & -PAGE & ALL_64 or page == READ_ONLY:
                raise LeftOut("push across pages")
            trial.pages[STACK_PAGE] = 0 if page == trial.pages[DATA_PAGE] else page

    def some_address(self, label, is_mapped):
        """Within the page of data, or of either canonical half where nothing is mapped."""
        random = self.random
        if is_mapped:
            return random.randrange(0, PAGE - self.instruction.width) + (READ_ONLY if label == "read only" else DATA)
        return canonical(random) if random.random() < 0.8 else random.randrange(0xFFFF800000000000, 0xFFFFFFFFFF000000)

    def put_absolute(self, trial, address, is_mapped):
        if trial.label == "read only":
            raise LeftOut("absolute operand, which isn't in the page that is read only")
        in_page = address % PAGE + self.instruction.width <= PAGE
        if not (self.in_line(address) or self.machine.splits_locks and in_page):
            raise LeftOut("absolute operand across a line or page")
        if is_mapped and not 0x10000 <= address < 0x7FFFFFFFE000:
            raise LeftOut("absolute operand where nothing can be mapped")
        if not is_mapped and address >> 12 == 0xFFFFFFFFFF600:
            raise LeftOut("absolute operand in the kernel's page of system calls")
        if is_mapped:
            trial.pages[DATA_PAGE] = address & -PAGE

    def put_flags(self, trial, variant):
        """Eight states tell the conditions apart; `add` and `adc` differ in the second run, `adc` and `sbb` in the first;
        of a shift the carry isn't what comes out, in one of two runs."""
        state, random, kind = trial.state, self.random, self.instruction.kind
        state.flags = RESERVED_AND_INTERRUPTS | random.choice([0, semantics.ADJUST]) | random.choice([0, semantics.DIRECTION])
        if kind == "branch" and trial.label == "run":
            state.flags |= CONDITION_FLAGS[variant]
        else:
            state.flags |= sum(random.choice([0, flag]) for flag in (CARRY, PARITY, ZERO, SIGN, OVERFLOW))
            if kind == "arithmetic" and trial.label == "run":
                state.flags = state.flags & ~CARRY | variant * CARRY
            elif kind == "shift" and variant == 1:
                state.flags = state.flags & ~CARRY | self.kept["flags"] & CARRY
        self.kept["flags"] = state.flags

    def put_operands(self, trial, place, variant):
        """Values of registers, and the bytes of a memory operand."""
        state, instruction = trial.state, self.instruction
        self.put_accumulator(state, variant)
        operand = self.put_vectors(state, variant)
        if operand is None:
            operand = self.operand(state, place, variant)
            self.kept["operand"] = operand
        if instruction.kind == "shift" and isinstance(place, Register):
            if variant == 1:
                semantics.set_value(state.general, place.view, instruction.width, ~self.kept["value"])
            self.kept["value"] = semantics.value_of(state.general, place.view, instruction.width)
        return operand

    def put_accumulator(self, state, variant):
        """Of `and` to al each bit counts, in one of two runs."""
        general = state.general
        if self.instruction.kind == "and al" and variant == 1:
            general[0] = general[0] & ~0xFF | ~self.kept["accumulator"] & 0xFF
        self.kept["accumulator"] = general[0]

    def operand(self, state, place, variant):
        """The bytes of a memory operand that isn't of vectors."""
        random, kind, width = self.random, self.instruction.kind, self.instruction.width
        if kind in ("arithmetic", "shift") and variant == 1:
            return bytes(255 - byte for byte in self.kept["operand"])  # so each bit of the other operand counts
        if kind == "arithmetic" and width >= 4:  # bits 63 and 31 differ
            data = bytearray(random.randbytes(8))
            data[7] = data[7] & 0x7F | ~data[3] & 0x80
            return bytes(data)
        if kind == "far":
            return struct.pack("<Q", canonical(random))
        if kind == "cmpxchg" and variant == 0:
            return (state.general[0] & semantics.mask(width)).to_bytes(width, "little")
        if kind == "cmpxchg16b" and variant == 0:
            return struct.pack("<QQ", state.general[semantics.RAX], state.general[semantics.RDX])
        return random.randbytes(width)

    def put_vectors(self, state, variant):
        """Vector registers and MXCSR; the memory operand of what takes vectors, else None."""
        instruction, random = self.instruction, self.random
        state.mxcsr, vectors, operand = MASKED, bytearray(random.randbytes(16 * VECTOR)), None
        if instruction.is_vector:
            state.mxcsr |= random.getrandbits(2) << 13
            state.mxcsr |= floats.DENORMALS_ARE_ZEROS if random.random() < 0.2 else 0
            state.mxcsr |= floats.FLUSH_TO_ZERO if random.random() < 0.2 else 0
            self.put_floats(vectors)
            operand = self.vector_operand(state, vectors, variant)
            if isinstance(instruction.place, Register):
                at = VECTOR * instruction.place.view.number
                vectors[at:at + instruction.width] = operand
            if instruction.is_vex:  # so that an instruction of 256 bits would do something above
                for at in range(0, 16 * VECTOR, VECTOR):
                    vectors[at + 16:at + 32] = vectors[at:at + 16]
                operand = operand * 2 if instruction.width == 16 else operand
        there = self.machine.vector_bytes
        for at in range(0, 16 * VECTOR, VECTOR):
            vectors[at + there:at + VECTOR] = bytes(VECTOR - there)
        state.vectors = bytes(vectors)
        return operand

    def put_floats(self, vectors):
        is_compare = self.instruction.kind in ("compare", "vcompare")
        width = self.lane_width() if is_compare else 8
        for at in range(0, 16 * VECTOR, VECTOR):
            lanes = (some_float(self.random, width).to_bytes(width, "little") for _ in range(16 // width))
            vectors[at:at + 16] = b"".join(lanes)

    def vector_operand(self, state, vectors, variant):
        kind, random = self.instruction.kind, self.random
        if kind in ("compare", "vcompare"):
            return self.compared(vectors, variant)
        if kind == "convert" and self.instruction.operation.name == "vcvttpd2dq" and variant == 0:
            state.mxcsr = MASKED
            return struct.pack("<2d", 1.75 + random.randrange(9), -2.75 - random.randrange(9))
        made = some_float if kind == "andps" else lambda random, _: some_double(random)
        return b"".join(made(random, 8).to_bytes(8, "little") for _ in range(2))

    def compared(self, vectors, variant):
        """Pairs of each relation in turn, then any, then a signalling NaN in one operand and nowhere else."""
        instruction, random, width = self.instruction, self.random, self.lane_width()
        lanes = instruction.width // width
        first_at = VECTOR * (instruction.vvvv if instruction.is_vex else instruction.reg.number)
        alone = variant - 4 // lanes - 1
        if alone >= 0:
            one, nan = floats.FORMATS[width].one, SIGNALLING[width]
            for at in range(0, 16 * VECTOR, VECTOR):
                vectors[at:at + 16] = one.to_bytes(width, "little") * (16 // width)
            pairs = [(nan, one) if alone == 0 else (one, nan)] * lanes
        elif variant >= 4 // lanes:
            pairs = [(some_float(random, width), some_float(random, width)) for _ in range(lanes)]
        else:
            order = random.sample(RELATIONS, 4) if lanes == 4 else \
                [RELATIONS[(variant * lanes + lane) % 4] for lane in range(lanes)]
            pairs = [pair(random, width, relation) for relation in order]
        vectors[first_at:first_at + instruction.width] = b"".join(first.to_bytes(width, "little") for first, _ in pairs)
        place = instruction.place
        if isinstance(place, Register) and VECTOR * place.view.number == first_at:  # beside itself: a NaN or not
            pairs = [(first, first if floats.is_nan(first, width) else second) for first, second in pairs]
        return b"".join(second.to_bytes(width, "little") for _, second in pairs)

    def put_memory(self, trial, place, operand, has_operand, is_mapped):
        """What stands in memory: what a push replaces, the operand, the code."""
        state = trial.state
        if self.instruction.pushes and is_mapped and trial.label != "cut":
            trial.pokes.append((state.general[RSP] - 8 & ALL_64, self.random.randbytes(8)))
        if has_operand:
            address = semantics.address_of(place, state.general, state.rip + self.instruction.length)
            within = address % PAGE + len(operand) <= PAGE
            trial.pokes.append((address, operand if within else operand[:self.instruction.width]))
        for address, data in [*trial.pokes, (state.rip, trial.shown(self.case.code))]:
            for at, byte in enumerate(data):
                state.memory[address + at & ALL_64] = byte

    def expected(self, trial, place, is_mapped):
        state = trial.state
        if trial.label == "cut":
            trial.follow = b""
            return semantics.faulted(state, "page fault", CODE + PAGE, (1,))
        if trial.label == "lock":
            return semantics.faulted(state, "not an instruction", state.rip, (2,))
        if trial.label == "run" and self.case.shown != self.case.code and trial.follow:
            trial.follow = (self.case.shown[self.instruction.length:] + trial.follow)[:20]
        outcome = semantics.executed(self.instruction.with_place(place), state, is_mapped, trial.label == "read only")
        if outcome.event == "done" and not (outcome.rip < 1 << 47 or outcome.rip > ALL_64 - (1 << 47)):
            raise LeftOut("target not canonical")
        return outcome


def trials_of(machine, case, random, left_out):
    return Maker(machine, case, random, left_out).trials()

