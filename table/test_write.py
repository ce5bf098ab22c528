#!/usr/bin/env python3
"""Runs write.py over tables that can't be, and over one of two instructions, each in a folder of its own."""

import ctypes
import os
import shutil
import subprocess
import sys
import tempfile
from pathlib import Path

HERE = Path(__file__).resolve().parent

# What lets root read and write everything, on Linux, and the call that takes it from what a process starts.
CAP_DAC_OVERRIDE, CAP_DAC_READ_SEARCH, PR_CAPBSET_DROP = 1, 2, 24

ROWS = "crates/cax64_machine_code/specs/Rows.antt"
INDEX = "crates/x64_reader/src/index.rt"
LEFT_OVER = "crates/lock_b/src/or.rt"

ADD = "lock_addl_mi_sxb | F0 W0 83 /0 | m32 imm8:sx32 |  | Add sign-extended `imm8` to `m32`. Locked."
JUMP = "jmp_d8 | EB | imm8:distance | branch | Jump short, by an 8-bit displacement from the next instruction."

# The fifth line is the one of the addition, the eighth that of the jump.
TABLE = f"""visit lock_add: lock_a/add
names locked::add: lock_a/add
names jumps::jump: jump/d8
[lock_a/add] `lock add`. (Intel SDM, volume 2, `ADD`.)
{ADD}

[jump/d8] Jumps by a distance of one byte. (Intel SDM, volume 2, `JMP`.)
{JUMP}
"""

MOVE = "movq_rm | W1 8B /r | r64:w rm64 |"
RETURN = "retq_i | C2 | imm16 |"

# The fourth line is the one of the move, the eighth that of the return.
CORE = f"""file moves: Moves.

[moves/mov] Moves. (Intel SDM, volume 2, `MOV`.)
{MOVE}

file control: Ends.
[control/end] Returns. (Intel SDM, volume 2, `RET`.)
{RETURN}
"""

RETURNS = "retq_* | rsp:rw stack64 | | | all | RET"

# The first line is that of the addition and the jump, the third that of the return.
EFFECTS = f"""lock_addl_* jmp_d8 | | CF | ZF OF | AF | ADD
movq_* | | | | | MOV
{RETURNS}
"""

# What stands before an opcode of one byte, and is none, here behind W0. (Intel SDM, volume 2, 2.1.1, 2.2.1, 2.3.)
PREFIXES = (0x26, 0x2E, 0x36, 0x3E, *range(0x40, 0x50), 0x62, *range(0x64, 0x68), 0xC4, 0xC5, 0xF0, 0xF2, 0xF3)

# What stands in the place of the addition, and the sentence that it gets.
BAD_LINES = (
    ("lock_addl_mi_sxb | F0 W0 83 /0 | m32 imm8:sx32 | Add.",
     "it has 4 columns, and a line has 5: name, code, operands, words, sentence"),
    (ADD.replace("lock_addl_mi_sxb", "Lock-add"),
     "the name of an instruction is small letters, digits and underscores"),
    (ADD.replace("83 /0", "83 /r"), "its code has /r, and none of its operands is a register that stands there"),
    (ADD.replace("83 /0", "83 /8"), "/8 stands behind the opcode, where only /r or a digit from /0 to /7 may"),
    (ADD.replace("83 /0", "183 /0"), "183 stands where the opcode byte would, two digits as 8F"),
    (ADD.replace("F0 W0", "VEX.128.67.0F.W0"),
     "67 in VEX.128.67.0F.W0 is no such field of a VEX prefix: there are NP, 66, F3, F2"),
    (ADD.replace("m32 imm8", "m32 r32 imm8"), "no field takes r32: a digit stands in reg"),
    (ADD.replace("83 /0", "83"), "no field takes m32, since its code has no ModR/M byte, which /r or a digit says"),
    (ADD.replace("m32 imm8", "m32 m64 imm8"), "it has 2 operands that may be memory, and a ModR/M byte holds one"),
    (ADD.replace("m32 imm8", "m32 imm32 imm8"), "no field takes imm8: it has an immediate already"),
    (ADD.replace("imm8:sx32", "imm8"), "imm8 works on 32 bits: it needs an extension, sx32, or the word count"),
    (ADD.replace("imm8:sx32", "imm8:sx64"), "imm8 is extended to 64 bits, and works on 32"),
    (ADD.replace("m32", "n32"), "n32 is no operand's name, as r32, m32, rm32, imm32, xmm1, xmm_m128 or eax"),
    (ADD.replace("m32", "m32:rw", 1), "m32:rw: no kind of operand says this access"),
    (ADD.replace("|  |", "| locked |"), "locked is a word that the table doesn't know"),
    (ADD.replace("|  |", "| shift call |"), "call says once more what another word says"),
    (ADD.replace("|  |", "| visits:r32 |"), "its visits name r32, and it has m32"),
    (ADD.replace(". Locked.", ""), "its sentence, which documents the struct, is missing or doesn't end"),
    (ADD.replace("F0 W0 83 /0", "= nopl_rm"),
     "only a no-operation shares another's row: its operand would be nop:1 to nop:9"),
    (ADD.replace("m32 imm8:sx32", "nop:12"), "nop:12 names no no-operation, as nop:1 to nop:9 do"),
    (ADD.replace("83 /0", "0F 38 F6 /0"), "0F 38 are two escapes, and an opcode without VEX has one at most"),
    (ADD.replace("83 /0", "0F 0F /0"), "0F 0F are two escapes, and an opcode without VEX has one at most"),
    (ADD.replace("83 /0", "0F"), "0F is no opcode: the opcode stands behind it"),
    (ADD.replace("F0 W0", "66 F0 W0"), "66 F0: each prefix stands once, in the order F0 66 F2 F3"),
    (ADD.replace("F0 W0", "F0 F0 W0"), "F0 F0: each prefix stands once, in the order F0 66 F2 F3"),
    (ADD.replace("F0 W0", "F2 F3 W0"), "F2 and F3 don't stand together: processors take one of them"),
    *((ADD.replace("83 /0", f"{byte:02X} /0"), f"{byte:02X} is a prefix, and no opcode") for byte in PREFIXES),
    (ADD.replace("imm8:sx32", "imm8:sx32:sx64"), "sx64 in imm8:sx32:sx64 says once more what another word says"),
    (ADD.replace("m32 imm8:sx32", "rm32:rw:w imm8:sx32"), "w in rm32:rw:w says once more what another word says"),
    (ADD.replace("|  |", "| memory:lock_add |"),
     "memory: names its mnemonic beside memory, and none of its operands may be that or a register"),
    (ADD.replace("|  |", "| visits:m32,m32 |"), "m32 stands twice in its visits"),
    (ADD.replace("Add", "\u2207dd"), "its character 53 is U+2207, and a line has printable ASCII alone"),
    (ADD.replace("83 /0 ", "83 /0\t"), "its character 31 is U+0009, and a line has printable ASCII alone"),
    (f"{ADD}\r", f"its character {len(ADD) + 1} is U+000D, and a line has printable ASCII alone"),
    (f"{ADD} ", "a space stands at its end"),
)

# What stands behind the table, in line 9, and the sentence that it gets with the name before it.
BAD_ENDS = (
    (JUMP, "jmp_d8: the name stands in line 8 too"),
    (JUMP.replace("jmp_d8", "jo_d8"), f"jo_d8: it has no place in all_rows of {ROWS}"),
    ("[lock_b/or] `lock or`.", "lock_b/or: the group has no struct"),
    ("visit lock_or: lock_b/or", "lock_or: lock_b/or is no group whose instructions have a place here"),
    ("visit lock_or: lock_b/or\nnames lock::or: lock_b/or", "lock_or: lock_b/or is no group whose instructions have a place here"),
    ("visit lock_add: lock_a/add", "lock_add: the function has a list in line 1 already"),
    ("names locked::add: lock_a/add", "locked::add: the function has a list in line 2 already"),
    ("[jump/d8] Jumps.", "jump/d8: the group stands twice"),
)

# Tables that lack something, and the sentence that they get.
BARE = (
    ("", "table/instructions.txt: the table: it has no line of an instruction"),
    ("# Nothing.\n\n", "table/instructions.txt: the table: it has no line of an instruction"),
    (TABLE.replace(JUMP, ""),
     f"table/instructions.txt: jmp_d8: it stands in all_rows of {ROWS}, and no line of the table is its row"),
    ("[nop/nop] None.\nnop_4b | = nopl_rm | nop:4 | | Four bytes.\nnop_5b | = nopl_rm | nop:4 | | Five.\n",
     "table/instructions.txt:3: nop_5b: nop_4b, line 2, is the no-operation of this length already"),
    (f"{ADD}\n{JUMP}\n",
     "table/instructions.txt:1: lock_addl_mi_sxb: it stands before the first group, a line as [lock_a/add] and what the file is about"),
)

# Tables of two rows that can't stand beside one another, by what the jump's line becomes.
BAD_PAIRS = (
    (JUMP.replace("EB | imm8:distance", "F0 W0 83 /0 | m32 imm8:sx32"),
     "lock_addl_mi_sxb: its prefixes, W, opcode and digit are those of jmp_d8, line 8"),
    (JUMP.replace("EB", "83"), "lock_addl_mi_sxb: its opcode has a digit here, and none in jmp_d8, line 8"),
)


# What stands in the place of the move, and the sentence that it gets.
BAD_CORE_LINES = (
    ("movq_rm | W1 8B /r | r64:w rm64 | | Move.", "it has 5 columns, and a line has 4: name, code, operands, words"),
    (MOVE.replace("movq_rm", "MOVQ"), "the name of an instruction is small letters, digits and underscores"),
    (MOVE.replace("rm64", "rm64:q"), "q in rm64:q is a word that an operand of this kind doesn't know"),
    (MOVE.replace("r64:w", "r64:w:rw"), "rw in r64:w:rw says once more what another word says"),
    (MOVE.replace("rm64", "imm8:w"), "imm8:w: an immediate is read, and w or rw isn't said of it"),
    (MOVE + " fast", "fast is a word that the core doesn't know"),
    (MOVE + " sse sse2", "sse2 says once more what another word says"),
    (MOVE.replace("8B", "48"), "48 is a prefix, and no opcode"),
    (MOVE.replace("rm64", "r32"), "it has 0 operands that may be memory, and a ModR/M byte holds one"),
    (MOVE.replace("rm64", "rm8"), "rm8 stands beside a register in reg, where it may be memory alone"),
    (MOVE.replace("r64:w rm64", "r8:w rm64"), "r8 stands in reg, beside which rm64 may be memory alone"),
    (MOVE.replace("W1 8B /r", "noREX 8B /r"), "it has a ModR/M byte, beside which a REX byte has to be allowed"),
    ("cqto_zo | W1 99 | rdx:w:implicit rax:implicit |",
     "it has W1, whose REX byte the encoder writes beside a ModR/M byte alone"),
    ("vaddsd_b | VEX.128.F2.0F.W0 58 /r | xmm1:w xmm2 xmm_m64 | avx",
     "it has a VEX prefix, and the lines of the core have legacy prefixes alone"),
    (MOVE.replace("W1 8B", "F0 66 F3 W0 8B"), "66 F0 F3 are more than two prefixes"),
    ("imulw_rmi | 66 F3 W0 0F 69 /r | r16:w rm16 imm32:count |",
     "imm32 is longer than the 16 bits that it works on"),
    ("imull_rmi | 66 F3 W0 0F 69 /r | r32:w rm32 imm32 |",
     "it may have 15 bytes, and an instruction has 13 at most"),
    (MOVE.replace("r64:w rm64", "r64:w m64 imm32:sx64"), "no type of constants takes its operands together"),
    (MOVE.replace("movq_rm", "jmp_d8"), "the name is that of the row jmp_d8"),
    ("jump_d8 | EB | imm8:distance |", "its prefixes, W, opcode and digit are those of the row jmp_d8"),
    (MOVE.replace("8B", "83"), "its opcode has no digit here, and one in the row lock_addl_mi_sxb"),
    (MOVE.replace("Moves", "\u2207oves").replace("r64", "\u2207"), "its character 22 is U+2207, and a line has printable ASCII alone"),
    ("[moves/mov] Moves.", "the group stands twice"),
    ("[moves] Moves.", "a group is its file and name in brackets, and what it is about"),
    ("[scalar/mov] Moves.", "scalar isn't the file that is named before it, a line as `file moves: Moves.`"),
    ("file moves: Moves.", "the file stands twice"),
    ("file moves", "a file is its name and a colon, and then a sentence that says what it is about"),
)

# Files of a core that lack something, and the sentence that they get.
BARE_CORES = (
    ("", "table/core.txt: the core: it has no line of an instruction"),
    (MOVE + "\n",
     "table/core.txt:1: movq_rm: it stands before the first group, a line as [moves/lea] and what the group is about"),
    (CORE.replace(RETURN, MOVE), "table/core.txt:8: movq_rm: the name is that of movq_rm, line 4"),
    (CORE.replace(RETURN, MOVE.replace("movq_rm", "movq_mr")),
     "table/core.txt:8: movq_mr: its prefixes, W, opcode and digit are those of movq_rm, line 4"),
)


# What stands in the place of the return's line of effects, and the sentence that it gets with the name before it.
BAD_EFFECTS = (
    ("retq_* | | | | RET", "retq_*: it has 5 columns, and a line has 6: lines, operands, read, written, undefined, page"),
    (RETURNS.replace("| RET", "|"), "retq_*: it names no lines, or no page of the manual"),
    (RETURNS.replace("retq_*", ""), "a line: it names no lines, or no page of the manual"),
    (RETURNS.replace("rsp:rw", "rsp:q"),
     "retq_*: rsp:q is no word for what a line does beside its operands, as rsp:rw, stack64:w or idle"),
    (RETURNS.replace("rsp:rw", "rax"),
     "retq_*: rax is no word for what a line does beside its operands, as rsp:rw, stack64:w or idle"),
    (RETURNS.replace("stack64", "stack32"),
     "retq_*: stack32 is no word for what a line does beside its operands, as rsp:rw, stack64:w or idle"),
    ("retq_* | | CF DF | | | RET", "retq_*: DF is no flag, as CF PF AF ZF SF OF, and no `all`, which stands alone"),
    ("retq_* | | all CF | | | RET", "retq_*: all is no flag, as CF PF AF ZF SF OF, and no `all`, which stands alone"),
    ("retq_* | | CF CF | | | RET", "retq_*: CF stands twice in a column"),
    ("retq_* | | | CF ZF | ZF | RET", "retq_*: ZF is written, and undefined too"),
    ("retq_* | idle | | | | RET", "retq_*: it says idle of retq_i, which has no place"),
    ("retq_i ret* | | | | | RET", "ret*: it names retq_i, as line 3 does with retq_i"),
    (RETURNS + "\nmov* | | | | | MOV", "mov*: it names movq_rm, as line 2 does with movq_*"),
    (RETURNS.replace("retq_*", "retq_* leave*"), "leave*: it is no pattern of a line's name"),
    (RETURNS + " ", "retq_*: a space stands at its end"),
)


def named(line):
    """What a line of the core is called where it is refused."""
    if line.startswith("["):
        return line[1:].split("]")[0] if "/" in line.split("]")[0] else line.split("|")[0]
    return line.split(" |")[0]


def bad_tables():
    """Each with where it is refused, and with what is said of it."""
    for line, sentence in BAD_LINES:
        yield TABLE.replace(ADD, line), ":5", f"{line.split(' |')[0]}: {sentence}"
    for line, sentence in BAD_ENDS:
        yield f"{TABLE}{line}\n", ":9", sentence
    for line, sentence in BAD_PAIRS:
        yield TABLE.replace(JUMP, line), ":8" if sentence.startswith("jmp_d8") else ":5", sentence
    yield TABLE.replace(JUMP, ""), "", f"jmp_d8: it stands in all_rows of {ROWS}, and no line of the table is its row"


def pages(name):
    """The files of a list, each behind a line with its path."""
    parts = (HERE / "test" / name).read_text(encoding="utf-8").split("==> ")[1:]
    return dict(part.split("\n", 1) for part in parts)


def without_rights():
    """What root starts has no right to read or write what isn't to be read or written; nobody else has it."""
    if os.geteuid() == 0:
        for right in (CAP_DAC_OVERRIDE, CAP_DAC_READ_SEARCH):
            ctypes.CDLL(None).prctl(PR_CAPBSET_DROP, right, 0, 0, 0)


class Checkout:
    """A folder with the scripts, a table and the files of before.txt."""

    def __init__(self, folder, table):
        self.root = Path(folder)
        (self.root / "table").mkdir()
        for script in HERE.glob("*.py"):
            shutil.copy(script, self.root / "table")
        self.put("table/instructions.txt", table)
        self.put("table/core.txt", CORE)
        self.put("table/effects.txt", EFFECTS)
        for path, text in pages("before.txt").items():
            self.put(path, text)

    def put(self, path, text):
        file = self.root / path
        file.parent.mkdir(parents=True, exist_ok=True)
        file.write_text(text, encoding="utf-8")

    def files(self):
        """The text of each file below crates/."""
        found = sorted((self.root / "crates").rglob("*.*"))
        return {str(file.relative_to(self.root)): file.read_text(encoding="utf-8") for file in found}

    def put_left_over(self):
        """A file that isn't written any more, in a folder that isn't to be written."""
        self.put(LEFT_OVER, "// Written by table/write.py from table/instructions.txt.\n")
        (self.root / LEFT_OVER).parent.chmod(0o555)

    @classmethod
    def nowhere(cls):
        """A folder of which only the paths are asked."""
        checkout = cls.__new__(cls)
        checkout.root = Path("/nowhere")
        return checkout

    def bytes(self):
        """What stands in each file and folder below crates/."""
        found = sorted((self.root / "crates").rglob("*"))
        return {str(file.relative_to(self.root)): file.read_bytes() if file.is_file() else None for file in found}

    def run(self, *words):
        """The status of the script, and what it complained of."""
        command = [sys.executable, "-B", self.root / "table/write.py", *words]
        done = subprocess.run(command, capture_output=True, text=True, encoding="utf-8", check=False,
                              preexec_fn=without_rights)
        return done.returncode, done.stderr.splitlines()


def spoilt(checkout):
    """Ways to make a file one that can't be read or written: what is done, and the sentence that follows."""
    rows, group = checkout.root / ROWS, checkout.root / "crates/lock_a"
    yield lambda: rows.unlink(), f"{ROWS}: it can't be read: No such file or directory"
    yield lambda: rows.write_text("-- none\n"), f"{ROWS}: it has no list all_rows"
    yield lambda: rows.write_bytes(b"all_rows = \xff"), f"{ROWS}: its byte 12 isn't UTF-8"
    yield lambda: rows.chmod(0), f"{ROWS}: it can't be read: Permission denied"
    table = checkout.root / "table/instructions.txt"
    yield table.unlink, "table/instructions.txt: it can't be read: No such file or directory"
    yield lambda: table.write_bytes(b"# \xc3\n"), "table/instructions.txt: its byte 3 isn't UTF-8"
    yield lambda: table.chmod(0), "table/instructions.txt: it can't be read: Permission denied"
    part = checkout.root / INDEX
    yield lambda: part.chmod(0), f"{INDEX}: it can't be read: Permission denied"
    yield lambda: part.chmod(0o444), f"{INDEX}: it can't be written: Permission denied"
    yield part.unlink, f"{INDEX}: it can't be read: No such file or directory"
    yield lambda: (group / "src").chmod(0o555), "crates/lock_a/src/add.rt: it can't be written: Permission denied"
    yield lambda: (group / "src/add.rt").mkdir(), "crates/lock_a/src/add.rt: it can't be read: Is a directory"
    yield lambda: (checkout.root / "crates/lock_a/src/add.rt.new").mkdir(), \
        "crates/lock_a/src/add.rt: it can't be written: Is a directory"
    yield lambda: (checkout.root / "crates/jump/specs").write_text(""), \
        "crates/jump/specs/Operands.antt: it can't be written: Not a directory"
    yield checkout.put_left_over, f"{LEFT_OVER}: it can't be removed: Permission denied"


class Tests:
    def __init__(self):
        self.passed = 0
        self.failed = 0

    def same(self, what, found, wanted):
        if found == wanted:
            self.passed += 1
        else:
            self.failed += 1
            print(f"{what}\n  found  {found}\n  wanted {wanted}")

    def bad_tables(self):
        """Each is refused with its sentence, and nothing is written."""
        with tempfile.TemporaryDirectory() as folder:
            checkout = Checkout(folder, TABLE)
            before = checkout.files()
            for table, place, sentence in bad_tables():
                checkout.put("table/instructions.txt", table)
                wanted = 2, [f"table/instructions.txt{place}: {sentence}"]
                self.same(sentence, checkout.run(), wanted)
            self.same("what a refused table leaves", checkout.files(), before)

    def bad_cores(self):
        with tempfile.TemporaryDirectory() as folder:
            checkout = Checkout(folder, TABLE)
            before = checkout.files()
            for line, sentence in BAD_CORE_LINES:
                checkout.put("table/core.txt", CORE.replace(MOVE, line))
                self.same(sentence, checkout.run(), (2, [f"table/core.txt:4: {named(line)}: {sentence}"]))
            for core, sentence in BARE_CORES:
                checkout.put("table/core.txt", core)
                self.same(sentence, checkout.run(), (2, [sentence]))
            self.same("what a refused core leaves", checkout.files(), before)

    def bad_effects(self):
        with tempfile.TemporaryDirectory() as folder:
            checkout = Checkout(folder, TABLE)
            before = checkout.files()
            for line, sentence in BAD_EFFECTS:
                checkout.put("table/effects.txt", EFFECTS.replace(RETURNS, line))
                place = 4 if "\n" in line else 3
                self.same(sentence, checkout.run(), (2, [f"table/effects.txt:{place}: {sentence}"]))
            checkout.put("table/effects.txt", EFFECTS.replace(f"{RETURNS}\n", ""))
            sentence = "no pattern names the line, so what it does beside its operands isn't said"
            self.same(sentence, checkout.run(), (2, [f"table/effects.txt: retq_i: {sentence}"]))
            self.same("what refused effects leave", checkout.files(), before)

    def bare_tables(self):
        with tempfile.TemporaryDirectory() as folder:
            checkout = Checkout(folder, TABLE)
            for table, sentence in BARE:
                checkout.put("table/instructions.txt", table)
                self.same(sentence, checkout.run(), (2, [sentence]))
            rows = "all_rows =\n" + "".join(f"    row.{name} ∷\n" for name in ("jmp_d8", "one", "two", "lock_addl_mi_sxb"))
            checkout.put(ROWS, rows.rstrip("\n") + " []\n")
            checkout.put("table/instructions.txt", TABLE)
            sentence = f"one: it stands in all_rows of {ROWS}, and no line of the table is its row, and so it is with 1 more"
            self.same("rows that are missing", checkout.run(), (2, [f"table/instructions.txt: {sentence}"]))

    def unusable_files(self):
        """A file that can't be read or written is one sentence, and every file stays as it was."""
        for number in range(len(list(spoilt(Checkout.nowhere())))):
            with tempfile.TemporaryDirectory() as folder:
                checkout = Checkout(folder, TABLE)
                spoil, sentence = list(spoilt(checkout))[number]
                spoil()
                before = checkout.bytes()
                status, complaints = checkout.run()
                self.same(sentence, (status, [said[:len(sentence)] for said in complaints]), (2, [sentence]))
                self.same(f"what is left where {sentence}", checkout.bytes(), before)

    def two_instructions(self):
        with tempfile.TemporaryDirectory() as folder:
            checkout = Checkout(folder, TABLE)
            self.same("what is written has no complaint", checkout.run(), (0, []))
            found, wanted = checkout.files(), pages("after.txt")
            self.same("the files that are there", sorted(found), sorted(wanted))
            for path, text in wanted.items():
                self.same(path, found.get(path), text)
            self.same("what was written is as the tables give it", checkout.run("--check"), (0, []))
            self.changed_by_hand(checkout, found)

    def digits_by_map(self):
        """An opcode byte may have digits in one map and none in another."""
        with tempfile.TemporaryDirectory() as folder:
            checkout = Checkout(folder, TABLE.replace(JUMP, JUMP.replace("EB", "0F 83")))
            self.same("digits in one map", checkout.run(), (0, []))
            lines = checkout.files()[INDEX].splitlines()
            found = [line for line in lines if line.endswith(("// 83 /0", "// 0F 83"))]
            empty = "[65535, 65535]"
            wanted = [f"    [{empty}, [1, 65535], {empty}], // 83 /0", f"    [[0, 0], {empty}, {empty}], // 0F 83"]
            self.same("the slots of 83", found, wanted)

    def changed_by_hand(self, checkout, found):
        """A change is found in a file, in a part, and where a file or a mark has gone."""
        struct, left = "crates/lock_a/src/add.rt", "crates/jump/src/d32.rt"
        differs, gone = "this isn't what the tables give", "the tables don't give this file any more"
        without = "it has no part index, which a line `// table/write.py: index` begins"
        changes = (
            (struct, found[struct].replace("visitor.read_amode", "visitor.read"), 1, f"{struct}:61: {differs}"),
            (INDEX, found[INDEX].replace("32769, 0", "32770, 0"), 1, f"{INDEX}:9: {differs}"),
            (left, found["crates/jump/src/d8.rt"], 1, f"{left}: {gone}"),
            (INDEX, found[INDEX].replace("// table/write.py: index", ""), 2, f"{INDEX}: {without}"),
        )
        for path, text, status, sentence in changes:
            self.after_change(checkout, path, text, (status, [sentence]))

    def after_change(self, checkout, path, text, wanted):
        before = checkout.files().get(path)
        checkout.put(path, text)
        self.same(f"--check after a change of {path}", checkout.run("--check"), wanted)
        if before is None:
            (checkout.root / path).unlink()
        else:
            checkout.put(path, before)


def main():
    tests = Tests()
    tests.bad_tables()
    tests.bad_cores()
    tests.bad_effects()
    tests.bare_tables()
    tests.unusable_files()
    tests.two_instructions()
    tests.digits_by_map()
    print(f"test_write: {tests.passed} passed" + (f", {tests.failed} failed" if tests.failed else ""))
    return 1 if tests.failed else 0


if __name__ == "__main__":
    sys.exit(main())
