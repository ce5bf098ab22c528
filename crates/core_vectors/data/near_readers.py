"""What objdump, LLVM's disassembler and Zydis read at the front of strings of bytes: how many bytes, which instruction with
operands of which kinds and sizes, and the values of these. Each tool is compared with itself alone, so that no spelling of
one has to be brought to that of another."""

import re
import subprocess
import tempfile
from concurrent.futures import ThreadPoolExecutor
from pathlib import Path
from typing import NamedTuple

# What stands behind each string, so that an instruction may be longer than it; no byte is 0, and no two are the same.
BEHIND = bytes(range(1, 9))
MOST = 15  # bytes of an instruction (Intel SDM, volume 2, 2.3.11)
SLOT = 48
CHUNK = 8000


class Read(NamedTuple):
    """An instruction. `identity` is its mnemonic, whether it is locked, and the kinds and sizes of its operands; `values` what
    the operands are."""

    length: int
    identity: tuple
    values: tuple


WORDS = {"data16", "addr32", "rep", "repz", "repnz", "repne", "lock", "cs", "ds", "es", "ss", "fs", "gs", "xacquire", "xrelease",
         "bnd", "notrack", "rex64"}
REGISTERS = (
    (r"[abcd][lh]|(?:sp|bp|si|di)l|r(?:8|9|1\d)b", "r8"), (r"[abcd]x|[sb]p|[sd]i|r(?:8|9|1\d)w", "r16"),
    (r"e(?:[abcd]x|[sb]p|[sd]i)|r(?:8|9|1\d)d", "r32"), (r"r(?:[abcd]x|[sb]p|[sd]i|8|9|1\d)", "r64"), (r"xmm\d+", "xmm"),
    (r"ymm\d+", "ymm"),
)
NUMBER = re.compile(r"-?(?:0x[0-9a-f]+|\d+)$")
BRANCH = re.compile(r"(j|call|loop|xbegin)")
PREDICATE = re.compile(r"(v?cmp)(?!xchg)\w*?([ps][sd])$")


def is_prefix(word):
    return word in WORDS or word.startswith("rex.") or word == "rex"


def split_words(text):
    """The prefixes that stand before a mnemonic, it, and its operands."""
    prefixes, rest = [], text.split(None, 1)
    while rest and is_prefix(rest[0]):
        prefixes.append(rest[0])
        rest = rest[1].split(None, 1) if len(rest) > 1 else []
    mnemonic, operands = (rest + ["", ""])[:2] if rest else ("", "")
    return prefixes, mnemonic.split(",p")[0], [operand.strip() for operand in operands.split(",") if operand.strip()]


def kind_of(operand, is_branch):
    """A register by its class, memory with its size, or a number."""
    text = operand.lower()
    if "[" in text or " ptr" in text or ":" in text:
        return "m " + (text.split(" ptr")[0] if " ptr" in text else "")
    if NUMBER.match(text):
        return "distance" if is_branch else "immediate"
    return next((kind for pattern, kind in REGISTERS if re.fullmatch(pattern, text)), text)


def read_of(address, length, intel, att):
    """An instruction of its text in both dialects: AT&T's mnemonic has sizes, and Intel's operands have."""
    prefixes, intel_mnemonic, operands = split_words(intel)
    _, mnemonic, _ = split_words(att)
    if not mnemonic or "(bad)" in intel or "<unknown>" in intel:
        return None
    found = PREDICATE.match(mnemonic)
    if found:  # the predicate stands in the name
        mnemonic, intel_mnemonic = found[1] + found[2], ""
        operands = [operand for operand in operands if not NUMBER.match(operand)]
    is_branch = bool(BRANCH.match(mnemonic))
    kinds = tuple(kind_of(operand, is_branch) for operand in operands)
    values = tuple(str(int(operand, 0) - address - length) if kind == "distance" else operand
                   for operand, kind in zip(operands, kinds))
    return Read(length, (mnemonic, intel_mnemonic, "lock" in prefixes, kinds), values)


def run(*command):
    return subprocess.run(command, capture_output=True, text=True, check=True).stdout


def listed(*command):
    """The bytes and text at each address of a listing."""
    found = {}
    for line in run(*command).splitlines():
        match = re.match(r"\s*([0-9a-f]+):\s*((?:[0-9a-f]{2} )*[0-9a-f]{2})\s*\t(.*)", line)
        if match:
            text = re.sub(r"\s*(#.*|<\.text.*>)\s*$", "", match[3]).strip()
            found[int(match[1], 16)] = len(match[2].split()), text
    return found


def at_slot(address, intel, att):
    """What is read at an address. A prefix may stand in a line of its own, before its instruction."""
    start, texts = address, ([], [])
    while address in intel and address in att:
        length, text = intel[address]
        texts[0].append(text)
        texts[1].append(att[address][1])
        address += length
        if split_words(text)[1]:
            break
    return read_of(start, address - start, " ".join(texts[0]), " ".join(texts[1]))


def by_listing(strings, tool, intel, att):
    """By a tool that lists an object file, in Intel's and in AT&T's dialect."""
    found = []
    with tempfile.TemporaryDirectory() as folder:
        raw, source, objects = (Path(folder) / name for name in ("a.bin", "a.s", "a.o"))
        source.write_text(f'.incbin "{raw}"\n')
        for first in range(0, len(strings), CHUNK):
            some = strings[first:first + CHUNK]
            raw.write_bytes(b"".join((string + BEHIND).ljust(SLOT, b"\x90") for string in some))
            run("as", "--64", "-o", objects, source)
            listings = [listed(tool, "-d", *words, objects) for words in (intel, att)]
            found += [at_slot(SLOT * number, *listings) for number in range(len(some))]
    return found


def by_objdump(strings):
    width = "--insn-width=16"
    return by_listing(strings, "objdump", (width, "-M", "intel"), (width, "-M", "suffix"))


def by_llvm(strings):
    """llvm-objdump lists what llvm-mc would, and how many bytes each instruction has."""
    return by_listing(strings, "llvm-objdump", ("--x86-asm-syntax=intel",), ("--x86-asm-syntax=att",))


# An operand of ZydisInfo's table: number, type, visibility, action, encoding, size, three columns more, and its value.
OPERAND = re.compile(r"\s*\d+\s+(REGISTER|MEMORY|IMMEDIATE|POINTER)\s+(\w+)\s+(\w+)\s+(\w+)\s+(\d+)\s+\S+\s+\S+\s+\S+\s+(\S.*)$")
INSIDE = re.compile(r"\s+(SEG|BASE|INDEX|SCALE|DISP)\s+=\s+(\S+)$")


def zydis_read(text):
    """Of what ZydisInfo tells, all operands, the hidden ones too."""
    found = re.search(r"MNEMONIC: (\S+) .*\n\s*LENGTH:\s*(\d+)", text)
    if not found:
        return None
    kinds, values = [], []
    for line in text.splitlines():
        operand = OPERAND.match(line)
        if operand:
            kind, _, _, _, size, value = operand.groups()
            register = re.sub(r"\d+", "", value) if value.startswith(("xmm", "ymm")) else ""
            kinds.append((kind, size, register))
            values.append(value)
        elif INSIDE.match(line):
            values.append(INSIDE.match(line)[2])
    return Read(int(found[2]), (found[1], "HAS_LOCK" in text, tuple(kinds)), tuple(values))


def by_zydis(strings):
    def one(string):
        given = (string + BEHIND)[:MOST].hex()
        done = subprocess.run(["ZydisInfo", "-64", given], capture_output=True, text=True, check=False)
        return zydis_read(done.stdout)

    with ThreadPoolExecutor(3) as pool:
        return list(pool.map(one, strings))


READERS = {"objdump": by_objdump, "LLVM": by_llvm, "Zydis": by_zydis}
