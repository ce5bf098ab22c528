#!/usr/bin/env python3
"""Writes core.tsv, whose bytes an assembler and three disassemblers gave, and none of this library.

  core.py [SEED]    with GNU as, nm, objcopy, objdump, llvm-mc and ZydisDisasm on the path

Each line of table/core.txt is written as text twenty times, with random operands, from its name and its operands alone: its
code isn't looked at. GNU as encodes the text, and has to give the form of the name, which a pseudo prefix ({load},
{store}) or the choice of operands sees to. What objdump, llvm-mc and Zydis say of the bytes has to be the same text, but
for suffixes, spellings of numbers, and names that are listed below. The status is 1 where one of them says otherwise.

Nine forms no assembler gives by themselves, since a shorter one or another one means the same: registers of mov with an
immediate, of push and pop, memory of movq of a vector register. Twenty of each stand behind the others. GNU as encodes
another instruction with the same prefixes, operands and digit, and the opcode is exchanged, or it takes REX.W as a word.

A line of core.tsv: the number of the line and its name, the register in reg, what the rest of the tail names, the
immediate, the bytes, the text of the instruction.
"""

import random
import re
import subprocess
import sys
import tempfile
from pathlib import Path

HERE = Path(__file__).resolve().parent
TABLE = HERE.parents[2] / "table"
SEED = 1
TRIES = 20

NAMES = {
    8: "al cl dl bl spl bpl sil dil r8b r9b r10b r11b r12b r13b r14b r15b".split(),
    16: "ax cx dx bx sp bp si di r8w r9w r10w r11w r12w r13w r14w r15w".split(),
    32: "eax ecx edx ebx esp ebp esi edi r8d r9d r10d r11d r12d r13d r14d r15d".split(),
    64: "rax rcx rdx rbx rsp rbp rsi rdi r8 r9 r10 r11 r12 r13 r14 r15".split(),
    128: [f"xmm{number}" for number in range(16)],
}
FIXED = ("al", "cl", "ax", "eax", "rax", "dx", "edx", "rdx", "rcx", "rbx")

# Lines whose register form no assembler gives, each with the mnemonic and the opcode of one with the same digit, and its own
# opcode. (Intel SDM, volume 2, `MOV`, `PUSH`, `POP`, `TEST`, `DIV` and `INC`.)
MEMORY_ALONE = {
    "movb_mi": ("testb", 0xF6, 0xC6), "movw_mi": ("testw", 0xF7, 0xC7), "movl_mi": ("testl", 0xF7, 0xC7),
    "pushw_m": ("divw", 0xF7, 0xFF), "pushq_m": ("divl", 0xF7, 0xFF),
    "popw_m": ("incw", 0xFF, 0x8F), "popq_m": ("incl", 0xFF, 0x8F),
}
# Lines whose memory form no assembler gives but by that of 32 bits and REX.W.
REGISTER_ALONE = {"movq_a": "rex.w movd", "movq_b": "rex.w movd"}


def lines_of(path, columns):
    """The names and operands of a table's lines."""
    for text in path.read_text().splitlines():
        cells = [cell.strip() for cell in text.split("|")]
        if len(cells) >= columns and not text.startswith("#"):
            yield cells[0], cells[2].split()


def port_count():
    """How many rows stand before the lines of core.txt."""
    text = (TABLE.parent / "crates/x64_core/src/lines.rt").read_text()
    first = next(name for name, _ in lines_of(TABLE / "core.txt", 4))
    names = re.findall(r"0x[0-9a-f_]+, // (\w+)", text)
    return names.index(first)


class Operand:
    """An operand as core.txt has it: what it may be, its bits, whether it's written out."""

    def __init__(self, text):
        kind, *words = text.split(":")
        self.kind = kind
        self.words = words
        self.implicit = "implicit" in words
        if kind in FIXED:
            self.what, self.bits = "fixed", 0
        elif kind.startswith("imm"):
            self.what, self.bits = "imm", int(kind[3:])
        elif kind == "xmm1":
            self.what, self.bits = "reg", 128
        elif kind.startswith("xmm_m"):
            self.what, self.bits = "rm", 128
        elif kind.startswith("rm"):
            self.what, self.bits = "rm", int(kind[2:])
        elif kind.startswith("m"):
            self.what, self.bits = "mem", int(kind[1:])
        else:
            self.what, self.bits = "reg", int(kind[1:])

    def signed(self):
        return next((int(word[2:]) for word in self.words if word.startswith("sx")), 0)


def random_immediate(rng, name, operand):
    """A value that is encoded in this operand's form and in no shorter one."""
    bits = operand.bits
    if operand.signed():
        if bits == 8:
            return rng.choice([0, 1, -1, 127, -128, rng.randrange(-128, 128)]), True
        while True:
            value = rng.choice([-2**31, 2**31 - 1, 128, -129, rng.randrange(-2**31, 2**31)])
            if not -128 <= value <= 127:
                return value, True
    if bits == 8:
        low = 2 if "count" in operand.words and not name.startswith("bt") else 0
        return rng.randrange(low, 256), False
    if name.startswith(("test", "mov", "ret")):
        return rng.randrange(0, 2**bits), False
    return rng.randrange(128, 2**bits - 128), False


def random_displacement(rng):
    return rng.choice([0, 0, 1, -1, 127, -128, 128, -129, 2**31 - 1, -2**31, rng.randrange(-128, 128),
                       rng.randrange(-2**31, 2**31)])


def displacement_text(value):
    """Nothing of 0, one digit as it is, and else in hexadecimal."""
    if value == 0:
        return ""
    return str(value) if abs(value) < 10 else f"{'-' if value < 0 else ''}0x{abs(value):x}"


def random_memory(rng):
    """An address: what core.tsv has, and as AT&T text."""
    base, displacement = rng.randrange(16), random_displacement(rng)
    text = displacement_text(displacement)
    if rng.random() < 0.5:
        return f"{base}:{displacement}", f"{text}(%{NAMES[64][base]})"
    index = rng.choice([number for number in range(16) if number != 4])
    scale = rng.choice([1, 2, 4, 8])
    factor = f", {scale}" if scale > 1 else ""
    return (f"{base}:{index}:{scale}:{displacement}",
            f"{text}(%{NAMES[64][base]}, %{NAMES[64][index]}{factor})")


class Case:
    """Operands by chance. `is_other` asks for the form that no assembler gives."""

    def __init__(self, rng, number, name, operands, front, is_other=False):
        self.number, self.name, self.front, self.is_other = number, name, front, is_other
        self.reg = self.place = self.imm = "-"
        texts = []
        accumulates = any(operand.what == "fixed" and not operand.implicit for operand in operands)
        for operand in operands:
            text = self.written(rng, operand, accumulates)
            if not operand.implicit:
                texts.append(text)
        self.mnemonic = name.split("_")[0]
        self.operands = texts[::-1]

    def written(self, rng, operand, accumulates):
        if operand.what == "fixed":
            return f"%{operand.kind}"
        if operand.what == "imm":
            value, _ = random_immediate(rng, self.name, operand)
            self.imm = str(value)
            return f"${value % 2 ** (operand.signed() or 64):#x}"
        if operand.what == "reg":
            number = rng.randrange(16)
            self.reg = str(number)
            return f"%{NAMES[operand.bits][number]}"
        alone = REGISTER_ALONE if self.is_other else MEMORY_ALONE
        others = MEMORY_ALONE if self.is_other else REGISTER_ALONE
        memory = operand.what == "mem" or self.name in alone
        if not memory and (self.name in others or rng.random() < 0.5):
            # With an immediate, the accumulator has a form of its own.
            number = rng.randrange(1, 16) if "_mi" in self.name else rng.randrange(16)
            self.place = f"r{number}"
            return f"%{NAMES[operand.bits][number]}"
        self.place, text = random_memory(rng)
        return text

    def text(self):
        return f"{self.mnemonic} {', '.join(self.operands)}".strip()

    def assembled(self):
        """What GNU as is given."""
        if not self.is_other:
            return f"{self.front}{self.text()}"
        if self.name in REGISTER_ALONE:
            return f"{REGISTER_ALONE[self.name]} {', '.join(self.operands)}"
        mnemonic = MEMORY_ALONE[self.name][0]
        operands = [shortened(operand) for operand in self.operands] if mnemonic.endswith("l") else self.operands
        return f"{mnemonic} {', '.join(operands)}"

    def exchanged(self, code):
        """The bytes of what GNU as was given as those of this case."""
        if not self.is_other or self.name in REGISTER_ALONE:
            return code
        _, before, after = MEMORY_ALONE[self.name]
        at = code.index(before)
        return code[:at] + bytes([after]) + code[at + 1:]


def shortened(operand):
    """A register of 64 bits as its lower half, which has its number."""
    name = operand.removeprefix("%")
    return f"%{NAMES[32][NAMES[64].index(name)]}" if name in NAMES[64] else operand


def front_of(name, operands):
    """The pseudo prefix by which GNU as takes the form of the name, where both operands may be registers."""
    form = name.partition("_")[2]
    kinds = [operand.what for operand in operands]
    if kinds == ["reg", "rm"] and form in ("rm", "a"):
        return "{load} "
    if kinds == ["rm", "reg"] and form in ("mr", "b"):
        return "{store} "
    return ""


def run(*command, text=None):
    return subprocess.run(command, input=text, capture_output=True, text=True, check=True).stdout


def encode(cases):
    """The bytes that GNU as gives for each case."""
    with tempfile.TemporaryDirectory() as folder:
        source, objects, raw = (f"{folder}/{name}" for name in ("a.s", "a.o", "a.bin"))
        Path(source).write_text("".join(f"L{number}: {case.assembled()}\n" for number, case in enumerate(cases)) + "L:\n")
        run("as", "--64", "-o", objects, source)
        places = {line.split()[2]: int(line.split()[0], 16) for line in run("nm", objects).splitlines()}
        run("objcopy", "-O", "binary", "-j", ".text", objects, raw)
        code = Path(raw).read_bytes()
    places[f"L{len(cases)}"] = len(code)
    codes = [code[places[f"L{number}"]:places[f"L{number + 1}"]] for number in range(len(cases))]
    return [case.exchanged(code) for case, code in zip(cases, codes)]


def by_objdump(codes):
    with tempfile.TemporaryDirectory() as folder:
        raw = f"{folder}/a.bin"
        Path(raw).write_bytes(b"".join(codes))
        shown = run("objdump", "-D", "-b", "binary", "-m", "i386:x86-64", "--insn-width=16", raw)
    return [line.split("\t")[2] for line in shown.splitlines() if line.count("\t") == 2]


def by_llvm(codes):
    text = "\n".join(" ".join(f"0x{byte:02x}" for byte in code) for code in codes)
    shown = run("llvm-mc", "--disassemble", "--triple=x86_64", "--output-asm-variant=0", text=text)
    return [line.strip().replace("\t", " ") for line in shown.splitlines() if line.strip() and ".text" not in line]


def by_zydis(codes):
    with tempfile.TemporaryDirectory() as folder:
        raw = f"{folder}/a.bin"
        Path(raw).write_bytes(b"".join(codes))
        shown = run("ZydisDisasm", "-64", raw)
    return [line.strip() for line in shown.splitlines() if line.strip()]


# Other spellings of mnemonics, behind which the suffix of a size is left out.
OTHERS = {"movabs": "mov", "cbw": "cbtw", "cwde": "cwtl", "cwd": "cwtd", "cdq": "cltd", "sal": "shl"}
CONDITIONS = {"nb": "ae", "z": "e", "nz": "ne", "nbe": "a", "nl": "ge", "nle": "g"}
SIZED = re.compile(r"[bwlq]$")


def number_of(text):
    return int(text, 0) % 2**64


def address_of(base, index, scale, displacement):
    return ("m", base, index, int(scale or 1) if index else 0, number_of(displacement or "0"))


ATT_MEMORY = re.compile(r"(-?(?:0x)?[0-9a-f]*)\((%\w+)(?:,\s*(%\w+)(?:,\s*([1248]))?)?\)$")


def att_operand(text):
    text = text.strip()
    if text.startswith("$"):
        return ("i", number_of(text[1:]))
    if text.startswith("%"):
        return ("r", text[1:])
    found = ATT_MEMORY.match(text)
    displacement, base, index, scale = found.groups()
    return address_of(base[1:], index and index[1:], scale, displacement)


def att_parsed(text):
    """Mnemonic and operands of AT&T text."""
    text = re.sub(r"\s*#.*", "", text).strip()
    text = re.sub(r"^rex\S*\s+", "", text)
    mnemonic, _, rest = text.partition(" ")
    operands = re.split(r",\s*(?![^(]*\))", rest.strip()) if rest.strip() else []
    return mnemonic, [att_operand(operand) for operand in operands]


def intel_operand(text):
    text = re.sub(r"^(byte|word|dword|qword|xmmword) ptr ", "", text.strip().lower())
    text = re.sub(r"^[defgs]s:", "", text)
    if text.startswith("["):
        inside = text[1:-1]
        base = index = None
        scale, displacement = 1, 0
        for sign, part in re.findall(r"([+-]?)([^+-]+)", inside):
            if re.match(r"0x|\d", part):
                displacement = int(part, 0) * (-1 if sign == "-" else 1)
            elif "*" in part:
                index, _, scale = part.partition("*")
            elif base is None:
                base = part
            else:
                index = part
        return address_of(base, index, scale, str(displacement))
    if re.match(r"-?0x|-?\d", text):
        return ("i", number_of(text))
    return ("r", text)


def intel_parsed(text):
    mnemonic, _, rest = text.partition(" ")
    operands = [intel_operand(operand) for operand in rest.split(",")] if rest else []
    return mnemonic.lower(), operands[::-1]


def wanted_of(case):
    return case.mnemonic, [att_operand(text) for text in case.operands]


def stem_of(mnemonic):
    """A mnemonic without the suffix of its size, or of its sizes."""
    mnemonic = OTHERS.get(mnemonic, mnemonic)
    if mnemonic in ("movsx", "movsxd") or re.match(r"movs[bwl][wlq]?$", mnemonic):
        return "movs"
    if mnemonic == "movzx" or re.match(r"movz[bwl][wlq]?$", mnemonic):
        return "movz"
    conditional = re.match(r"(set|cmov)(\w+)$", mnemonic)
    if conditional:
        return conditional[1] + CONDITIONS.get(conditional[2], conditional[2])
    return mnemonic


def same_mnemonic(ours, theirs):
    ours, theirs = stem_of(ours), stem_of(theirs)
    return ours == theirs or SIZED.sub("", ours) == theirs or ours == SIZED.sub("", theirs)


def same_operand(ours, theirs):
    if ours[0] != theirs[0]:
        return False
    if ours[0] == "i":
        # An immediate is written by the size of what it works on.
        return any((ours[1] - theirs[1]) % 2**bits == 0 for bits in (8, 16, 32, 64))
    return ours == theirs


def same(ours, theirs):
    return same_mnemonic(ours[0], theirs[0]) and len(ours[1]) == len(theirs[1]) \
        and all(map(same_operand, ours[1], theirs[1]))


def differences(cases, codes):
    readers = (("objdump", by_objdump, att_parsed), ("llvm-mc", by_llvm, att_parsed), ("Zydis", by_zydis, intel_parsed))
    for name, read, parsed in readers:
        texts = read(codes)
        if len(texts) != len(cases):
            yield f"{name} reads {len(texts)} instructions for {len(cases)}"
            continue
        for case, code, text in zip(cases, codes, texts):
            if not same(wanted_of(case), parsed(text)):
                yield f"{name}: {code.hex(' ')} is {text!r}, and was {case.text()!r} of {case.name}"


def cases_of(seed):
    """Twenty of each line, and of each form that no assembler gives, whose operands don't depend on the others'."""
    lines = [(number, name, [Operand(operand) for operand in operands])
             for number, (name, operands) in enumerate(lines_of(TABLE / "core.txt", 4), port_count())]
    rng, others = random.Random(seed), random.Random(f"other forms {seed}")
    cases = [Case(rng, *line, front_of(*line[1:])) for line in lines for _ in range(TRIES)]
    return cases + [Case(others, *line, "", True) for line in lines if line[1] in {*MEMORY_ALONE, *REGISTER_ALONE}
                    for _ in range(TRIES)]


def main(seed=SEED):
    cases = cases_of(int(seed))
    codes = encode(cases)
    found = list(differences(cases, codes))
    for difference in found[:40]:
        print(difference, file=sys.stderr)
    print(f"{len(cases)} cases, {len(found)} differences", file=sys.stderr)
    rows = ["#op\tname\treg\tplace\timm\tbytes\ttext"]
    for case, code in zip(cases, codes):
        rows.append("\t".join((str(case.number), case.name, case.reg, case.place, case.imm, code.hex(), case.text())))
    (HERE / "core.tsv").write_text("\n".join(rows) + "\n")
    return 1 if found else 0


if __name__ == "__main__":
    sys.exit(main(*sys.argv[1:]))
