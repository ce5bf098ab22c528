"""Judges what was read: each line by itself, and all lines together. What passes is the table."""

import re
from collections import Counter

from instruction import Table
from parts import Misplaced, text_of
from reading import Lines, Refused

ROWS = "crates/cax64_machine_code/specs/Rows.antt"

# The borrow checker covers a function that makes a variant below this number.
COVERED_VARIANTS = 128
VARIANTS = 256


def judge_tail(instruction):
    """Each operand has a field that takes it, and each field an operand."""
    code, registers = instruction.code, instruction.registers
    places = [operand for operand in instruction.operands if operand.is_place]
    if not code.has_modrm:
        for operand in registers + places:
            raise Refused(f"no field takes {operand.name}, since its code has no ModR/M byte, which /r or a digit says")
        return
    if len(places) != 1:
        raise Refused(f"it has {len(places)} operands that may be memory, and a ModR/M byte holds one")
    most = 0 if code.digit is not None else 2 if code.vex else 1
    for operand in registers[most:]:
        raise Refused(f"no field takes {operand.name}: {fields_of(code)}")
    if code.digit is None and not registers:
        raise Refused("its code has /r, and none of its operands is a register that stands there")


def fields_of(code):
    if code.digit is not None:
        return "a digit stands in reg"
    return "reg and vvvv hold the registers before it" if code.vex else "reg holds the register before it"


def judge_written_pair(instruction):
    """Two general registers that are written are one operand, so they stand together."""
    places = [place for place, operand in enumerate(instruction.operands)
              if operand.kind == "general" and operand.access == "Write"]
    if len(places) == 2 and places[1] != places[0] + 1:
        raise Refused("the two registers that it writes don't stand together")


def width_of(instruction):
    """The size of the general register or memory that an immediate works on, or None."""
    sizes = [operand.size for operand in instruction.operands if operand.kind not in ("immediate", "vector or memory")]
    return next((size for size in sizes if size), None)


def judge_immediate(instruction):
    """An immediate that is shorter than what it works on says how it is taken."""
    immediates = [operand for operand in instruction.operands if operand.kind == "immediate"]
    width = width_of(instruction)
    if len(immediates) > 1:
        raise Refused(f"no field takes {immediates[1].name}: it has an immediate already")
    for immediate in immediates:
        name, reading = immediate.name, immediate.reading or ""
        if not reading and width is None:
            raise Refused(f"{name} has no word that says what it is, as predicate or distance")
        if not reading and immediate.size < width:
            raise Refused(f"{name} works on {width} bits: it needs an extension, sx{width}, or the word count")
        if width and immediate.size > width:
            raise Refused(f"{name} is longer than the {width} bits that it works on")
        if reading.startswith("sx") and int(reading[2:]) != width:
            raise Refused(f"{name} is extended to {reading[2:]} bits, and works on {width}")
        judge_reading(immediate)


def judge_reading(immediate):
    """The kinds of immediates that cax64_operand has: a signed one has a byte or four, a named one a byte."""
    if immediate.is_signed and immediate.size == 16:
        raise Refused(f"{immediate.name} is signed, and no kind of immediate says this of 16 bits")
    if immediate.reading in ("predicate", "count") and immediate.size != 8:
        raise Refused(f"{immediate.name} is no {immediate.reading}, which is a byte")


def judge_nop(instruction):
    if instruction.nop and len(instruction.operands) > 1:
        raise Refused("a no-operation has no operands beside the word that says which it is")
    if not instruction.nop and instruction.row_name:
        raise Refused("only a no-operation shares another's row: its operand would be nop:1 to nop:9")
    says = (instruction.style != "plain", instruction.extension, instruction.is_64_bit_alone, instruction.mnemonic)
    if instruction.row_name and any(says):
        raise Refused(f"how it prints and what it asks for is said of its row, {instruction.row_name}")


def judge_names(instruction):
    names = [operand.name for operand in instruction.operands]
    for name, count in Counter(names).items():
        if count > 1:
            raise Refused(f"{name} stands twice among its operands")
    for name, count in Counter(instruction.visits).items():
        if count > 1:
            raise Refused(f"{name} stands twice in its visits")
    visited = {operand.name for operand in instruction.operands if operand.kind != "immediate"}
    if instruction.visits and set(instruction.visits) != visited:
        raise Refused(f"its visits name {','.join(instruction.visits)}, and it has {','.join(sorted(visited))}")
    if not instruction.operands:
        raise Refused("it has no operands; a no-operation has the word nop with its number of bytes")


def judge_text(instruction):
    if instruction.has_struct and not instruction.doc.endswith("."):
        raise Refused("its sentence, which documents the struct, is missing or doesn't end")
    if not instruction.has_struct and instruction.doc:
        raise Refused("it is a row alone, so its sentence would stand nowhere")
    if not instruction.has_struct and instruction.row_name:
        raise Refused("it is a row alone, and has another's row")
    if instruction.memory_mnemonic and not (instruction.place and " or " in instruction.place.kind):
        raise Refused("memory: names its mnemonic beside memory, and none of its operands may be that or a register")
    if instruction.style == "compare" and instruction.printed_mnemonic[-2:] not in ("ps", "pd", "ss", "sd"):
        raise Refused("it is a comparison, and its mnemonic doesn't end with what it compares: ps, pd, ss or sd")


def judge_line(instruction):
    judge_names(instruction)
    judge_text(instruction)
    judge_nop(instruction)
    if instruction.code and not instruction.nop:
        judge_tail(instruction)
        judge_written_pair(instruction)
        judge_immediate(instruction)


def judge_twice(lines):
    """No name stands twice, and no two no-operations have one length."""
    first, lengths = {}, {}
    for instruction in lines.instructions:
        if instruction.name in first:
            lines.refuse(instruction.line, instruction.name, f"the name stands in line {first[instruction.name]} too")
        elif instruction.nop in lengths:
            other = lengths[instruction.nop]
            sentence = f"{other.name}, line {other.line}, is the no-operation of this length already"
            lines.refuse(instruction.line, instruction.name, sentence)
        first.setdefault(instruction.name, instruction.line)
        if instruction.nop:
            lengths.setdefault(instruction.nop, instruction)


def keys_of(row):
    """The places of the reader's index that a row takes: its opcode and digit, its prefixes, and each W that it has."""
    code = row.code
    return [(code.opcode_in_map, code.digit, code.prefix_number, w)
            for w in ((0, 1) if code.w is None else (code.w,))]


def judge_keys(lines, rows):
    """No two rows have one key, and the rows of an opcode of a map have digits all or none."""
    keys, digits = {}, {}
    for row in rows:
        opcode = row.code.opcode_in_map
        other = next((keys[key] for key in keys_of(row) if key in keys), None)
        if other:
            sentence = f"its prefixes, W, opcode and digit are those of {other.name}, line {other.line}"
            lines.refuse(row.line, row.name, sentence)
            continue
        keys.update((key, row) for key in keys_of(row))
        first = digits.setdefault(opcode, row)
        if (first.code.digit is None) != (row.code.digit is None):
            has, other_has = ("no digit", "one") if row.code.digit is None else ("a digit", "none")
            sentence = f"its opcode has {has} here, and {other_has} in {first.name}, line {first.line}"
            lines.refuse(row.line, row.name, sentence)


def judge_rows(lines, order):
    """The rows are those of the definitions; their order is taken from there."""
    rows = {instruction.name: instruction for instruction in lines.instructions if instruction.is_row}
    for name, row in rows.items():
        if name not in order:
            lines.refuse(row.line, name, f"it has no place in all_rows of {ROWS}")
    missing = [name for name in order if name not in rows]
    if missing:
        others = f", and so it is with {len(missing) - 1} more" if len(missing) > 1 else ""
        sentence = f"it stands in all_rows of {ROWS}, and no line of the table is its row{others}"
        lines.refuse(0, missing[0], sentence)
    for instruction in lines.instructions:
        if instruction.row not in rows:
            lines.refuse(instruction.line, instruction.name, f"{instruction.row} is no row of the table")
    return tuple(rows[name] for name in order if name in rows)


def judge_lists(lines, kind, lists, wanted):
    """Each group that is wanted stands in one list of a kind, and no list has a group that isn't."""
    found = {}
    for function, (line, groups) in lists.items():
        for group in groups:
            if group not in wanted:
                lines.refuse_once(line, function, f"{group} is no group whose instructions have a place here")
            elif group in found:
                lines.refuse(line, function, f"{group} stands in the list {found[group]} too")
            found.setdefault(group, function)
    for group in lines.groups:
        if group.name in wanted and group.name not in found:
            lines.refuse(group.line, group.name, f"no list `{kind}` has the group")


def judge_groups(lines, _):
    structs = [instruction for instruction in lines.instructions if instruction.has_struct]
    visited = {instruction.group.name for instruction in structs if instruction.has_registers}
    unvisited = {instruction.group.name for instruction in structs if not instruction.has_registers}
    for group in lines.groups:
        if group.name not in visited | unvisited:
            lines.refuse(group.line, group.name, "the group has no struct")
        if group.name in visited & unvisited:
            lines.refuse(group.line, group.name, "some of its instructions have registers, and some have none")
    judge_lists(lines, "visit", lines.visits, visited)
    judge_lists(lines, "names", lines.names, visited | unvisited)


def judge_variants(lines, _):
    structs = [instruction for instruction in lines.instructions if instruction.has_struct]
    taken = f"it has registers, and all {COVERED_VARIANTS} variants of Inst that the borrow checker covers are taken"
    for instruction in [struct for struct in structs if struct.has_registers][COVERED_VARIANTS:]:
        lines.refuse(instruction.line, instruction.name, taken)
    for instruction in structs[VARIANTS:]:
        lines.refuse(instruction.line, instruction.name, f"Inst has more than {VARIANTS} variants")


def order_of_rows(root):
    """The names of all_rows, in their order."""
    found = re.search(r"^all_rows =((?:\s+row\.\w+ ∷)*)", text_of(root, ROWS), re.M)
    if not found:
        raise Misplaced(f"{ROWS}: it has no list all_rows")
    return found[1].replace("∷", " ").replace("row.", "").split()


def table_of(root, text):
    """The table, or the sentences that its lines get."""
    lines = Lines(text)
    for instruction in lines.instructions:
        try:
            judge_line(instruction)
        except Refused as refused:
            lines.refuse(instruction.line, instruction.name, refused)
    judge_twice(lines)
    rows = () if lines.sentences else judge_rows(lines, order_of_rows(root))
    for judge in (judge_keys, judge_groups, judge_variants):
        if not lines.sentences:
            judge(lines, rows)
    if lines.sentences:
        return None, sorted(lines.sentences)
    visits = {function: groups for function, (_, groups) in lines.visits.items()}
    names = {function: groups for function, (_, groups) in lines.names.items()}
    return Table(tuple(lines.groups), tuple(lines.instructions), rows, visits, names), []
