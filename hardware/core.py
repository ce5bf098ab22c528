"""The lines of the core: what kind of operation a name is, and the cases of core.tsv. Nothing here looks at bytes."""

import re
from typing import NamedTuple

from cases import Case
from fields import CONDITIONS, Memory, Register, View, WIDTHS

SCALARS = {"ss": 4, "sd": 8}
CONDITION = "|".join(sorted(CONDITIONS, key=len, reverse=True))


class Form(NamedTuple):
    """What a line does: a kind, what distinguishes lines of one kind, how many bytes its place has and how many its
    register, and how its operands stand: m the place, r the register, i the immediate, c cl; what is written comes first."""

    kind: str
    name: str
    width: int
    to: int
    form: str


def sized(kind, name, suffix, form):
    return Form(kind, name, WIDTHS[suffix], WIDTHS[suffix], form)


FORMS = (
    (r"(add|or|adc|sbb|and|sub|xor|cmp|test)([bwlq])_(i|mi|mr|rm)(?:_sx[bl])?", lambda m: sized("arithmetic", m[1], m[2], m[3])),
    (r"mov([bwlq])_(mi|mr|rm)(?:_sxl)?", lambda m: sized("move", "", m[1], m[2])),
    (r"mov([sz])([bwl])([wlq])_rm", lambda m: Form("extend", m[1], WIDTHS[m[2]], WIDTHS[m[3]], "rm")),
    (r"lea([wlq])_rm", lambda m: sized("address", "", m[1], "rm")),
    (r"(i?mul|i?div)([bwlq])_m", lambda m: sized(m[1].lstrip("i"), m[1], m[2], "m")),
    (r"imul([wlq])_(rmi|rm)(?:_sx[bl])?", lambda m: sized("product", "", m[1], m[2])),
    (r"(neg|not)([bwlq])_m", lambda m: sized(m[1], "", m[2], "m")),
    (r"(cbtw|cwtl|cwtd|cltd)_zo", lambda m: Form("convert", m[1], 0, 0, "")),
    (r"(rol|ror|shl|shr|sar)([bwlq])_(mc|mi)", lambda m: sized("shift", m[1], m[2], m[3])),
    (r"shld([wlq])_(mri|mrc)", lambda m: sized("double shift", "", m[1], m[2])),
    (rf"set({CONDITION})_m", lambda m: Form("set", m[1], 1, 1, "m")),
    (rf"cmov({CONDITION})([wlq])_rm", lambda m: sized("conditional move", m[1], m[2], "rm")),
    (r"push([wq])_(m|i8|i16|i32)", lambda m: sized("push", "", m[1], m[2][0])),
    (r"pop([wq])_m", lambda m: sized("pop", "", m[1], "m")),
    (r"(retq|leaveq|ud2|int3|hlt)_(zo|i)", lambda m: Form(m[1], "", 0, 0, m[2])),
    (r"(bsf|bsr|tzcnt|lzcnt|popcnt)([wlq])_rm", lambda m: sized("scan", m[1], m[2], "rm")),
    (r"bt([wlq])_(mr|mi)", lambda m: sized("bit", "", m[1], m[2])),
    (r"(xadd|cmpxchg)([bwlq])_mr", lambda m: sized(m[1], "", m[2], "mr")),
    (r"cmpxchg16b_m", lambda m: Form("cmpxchg16b", "", 16, 16, "m")),
    (r"(add|sub|mul|div|min|max|sqrt)(ss|sd)_a", lambda m: Form("scalar", m[1], SCALARS[m[2]], SCALARS[m[2]], "rm")),
    (r"ucomi(ss|sd)_a", lambda m: Form("ordered", "", SCALARS[m[1]], SCALARS[m[1]], "rm")),
    (r"(and|andn|or|xor)p[sd]_a|p(xor)_a", lambda m: Form("logic", m[1] or m[2], 16, 16, "rm")),
    (r"mov(ss|sd)_([ac])_m", lambda m: Form("scalar move", "", SCALARS[m[1]], 16, "rm" if m[2] == "a" else "mr")),
    (r"mov(?:aps|apd|dqa)_([ab])", lambda m: Form("aligned move", "", 16, 16, "rm" if m[1] == "a" else "mr")),
    (r"mov(?:ups|upd|dqu)_([ab])", lambda m: Form("vector move", "", 16, 16, "rm" if m[1] == "a" else "mr")),
    (r"mov([dq])_([ab])", lambda m: Form("word move", "", 4 if m[1] == "d" else 8, 16, "rm" if m[2] == "a" else "mr")),
    (r"cvtsi2(ss|sd)([lq])_a", lambda m: Form("of integer", m[1], WIDTHS[m[2]], 16, "rm")),
    (r"cvt(t?)(ss|sd)2si([lq])_a", lambda m: Form("to integer", m[1], SCALARS[m[2]], WIDTHS[m[3]], "rm")),
    (r"cvtss2sd_a|cvtsd2ss_a", lambda m: Form("precision", "", 4 if "ss2sd" in m[0] else 8, 16, "rm")),
    (r"cvt(ps2pd|dq2pd)_a", lambda m: Form("packed", m[1], 8, 16, "rm")),
    (r"cvt(pd2ps|dq2ps|tps2dq|tpd2dq)_a", lambda m: Form("packed", m[1], 16, 16, "rm")),
)

# Kinds whose operands are in vector registers: the register, the place.
VECTOR_REGISTER = {"scalar", "ordered", "logic", "scalar move", "aligned move", "vector move", "word move", "of integer",
                   "precision", "packed"}
VECTOR_PLACE = VECTOR_REGISTER - {"word move", "of integer"} | {"to integer"}


def form_of(name):
    for pattern, made in FORMS:
        match = re.fullmatch(pattern, name)
        if match:
            return made(match)
    raise ValueError(f"{name} is no line that is known here")


class CoreInstruction:
    """A line of the core with its operands, and how many bytes it has."""

    vvvv, has_lock, is_vex = None, False, False

    def __init__(self, row, reg, place, immediate, length):
        self.row, self.reg, self.place, self.immediate, self.length = row, reg, place, immediate, length
        self.operation = form_of(row)

    def with_place(self, place):
        return CoreInstruction(self.row, self.reg, place, self.immediate, self.length)

    @property
    def kind(self):
        return self.operation.kind

    @property
    def width(self):
        return self.operation.width

    @property
    def has_memory(self):
        return isinstance(self.place, Memory) and self.kind != "address"

    @property
    def writes_memory(self):
        """Whether it writes its place, where that is memory."""
        kind, form = self.operation.kind, self.operation.form
        if kind == "arithmetic":
            return form[0] == "m" and self.operation.name not in ("cmp", "test")
        if kind in ("neg", "not", "shift", "double shift", "set", "pop", "xadd", "cmpxchg", "cmpxchg16b"):
            return True
        return "move" in kind and form[0] == "m"

    @property
    def reads_memory(self):
        return not (self.kind in ("set", "pop") or "move" in self.kind and self.operation.form[0] == "m")

    @property
    def is_locked(self):
        return False

    @property
    def pushes(self):
        return self.kind == "push"

    @property
    def uses_stack(self):
        return self.kind in ("push", "pop", "retq", "leaveq")

    @property
    def alignment(self):
        """Operands of 16 bytes without VEX fault where they aren't aligned, but for those of movups, movupd and movdqu."""
        aligned = self.kind in ("logic", "aligned move", "cmpxchg16b") or self.kind == "packed" and self.width == 16
        return 16 if aligned else 1

    @property
    def feature(self):
        return {"tzcnt": "bmi1", "lzcnt": "abm", "popcnt": "popcnt"}.get(self.operation.name) or \
            {"cmpxchg16b": "cx16"}.get(self.kind, "fpu")


def place_of(text):
    if text == "-":
        return None
    if text.startswith("r"):
        return Register(View(int(text[1:])))
    numbers = [int(number) for number in text.split(":")]
    if len(numbers) == 2:
        return Memory(numbers[0], None, 1, numbers[1])
    return Memory(*numbers)


def case_of(columns):
    _, name, reg, place, immediate, code, _ = columns
    code = bytes.fromhex(code)
    register = None if reg == "-" else View(int(reg))
    value = None if immediate == "-" else int(immediate)
    instruction = CoreInstruction(name, register, place_of(place), value, len(code))
    return Case(code, code, instruction, None, False, None, " ".join(columns))


def cases_of(path):
    with open(path, encoding="utf-8") as file:
        return [case_of(line.rstrip("\n").split("\t")) for line in file if not line.startswith("#")]
