"""The rows: their enumeration and names, their places, and the packed table."""

import re

from formatting import arms

PLACE_MEMORY, PLACE_REGISTER, PLACE_REGISTER_8 = range(3)
TAIL_NONE, TAIL_DIGIT, TAIL_REGISTER_8, TAIL_REGISTER = range(4)
ANY_W = 2
NO_DIGIT = 8


def place_field(row):
    """What the rest of the tail may be."""
    place = row.place
    if place is None or place.kind == "memory":
        return PLACE_MEMORY
    return PLACE_REGISTER_8 if place.kind == "general or memory" and place.size == 8 else PLACE_REGISTER


def tail_field(row):
    """What stands in the reg field."""
    if not row.code.has_modrm:
        return TAIL_NONE
    if row.code.digit is not None:
        return TAIL_DIGIT
    return TAIL_REGISTER_8 if row.registers[0].size == 8 else TAIL_REGISTER


def uses_8bit(row):
    return tail_field(row) == TAIL_REGISTER_8 or place_field(row) == PLACE_REGISTER_8


def prefix_bits(row):
    """Bits 6 to 12: VEX, and its fields or the legacy prefixes."""
    code = row.code
    if code.vex:
        return 1 | code.vex.pp << 1 | code.vex.opcode_map << 3 | code.vex.l << 5 | (len(row.registers) == 2) << 6
    return code.prefix_number << 1 | code.may_have_rex << 5 | uses_8bit(row) << 6


def packed(row):
    """The packed number of a row; the layout stands above `TABLE` in packed.rt."""
    code, immediate = row.code, row.immediate
    fields = (
        (0, immediate.size // 8 if immediate else 0),
        (3, bool(immediate and immediate.is_signed)),
        (4, ANY_W if code.w is None else code.w),
        (6, prefix_bits(row)),
        (13, place_field(row)),
        (15, tail_field(row)),
        (17, NO_DIGIT if code.digit is None else code.digit),
        (21, code.opcode),
        (29, code.escape),
        (30, int.from_bytes(code.opcode_bytes, "little")),
        (46, int.from_bytes(code.legacy_bytes, "little")),
        (62, len(code.legacy_bytes)),
    )
    return sum(value << low for low, value in fields)


def hexadecimal(number):
    digits = f"{number:016x}"
    return "0x" + "_".join(digits[place:place + 4] for place in range(0, 16, 4))


def packed_table(rows):
    return [f"const TABLE: [u64; {len(rows)}] = [", *(f"    {hexadecimal(packed(row))}, // {row.name}" for row in rows),
            "];"]


def all_rows(names):
    return [f"static ALL: [Row; {len(names)}] = [", *(f"    Row::{name}," for name in names), "];"]


# The branches, by their opcodes. (Intel SDM, volume 2, the pages of JMP, CALL and Jcc.)
BRANCHES = {"Jump": "EB|E9|FF /4", "Call": "E8|FF /2", "Conditional": "7.|0F 8."}


def branch_arms(rows):
    """The rows of each kind of branch."""
    lines = []
    for kind, opcodes in BRANCHES.items():
        found = [row for row in rows if not row.code.vex and re.fullmatch(opcodes, row.code.opcode_name)]
        lines += arms([f"Row::{row.name}" for row in found], f"Some(Branch::{kind})", " " * 12)
    return lines


def number_function(count):
    """The place of a row, with its bound."""
    return [
        "#[inline(always)]",
        "fn number(row: Row) -> usize",
        "    ensures is { result ≡ number_of row }",
        f"    ensures below {{ result < {count} }}",
        "{",
        "    row as usize",
        "}",
    ]


def number_lemmas(rows):
    return [
        f"below : (row : Row) → nat_lt (number_of row) {len(rows)} ≡ true",
        "unfolding number_of",
        f"below {rows[0].name} = refl",
        "below _ = refl",
        "",
        f"pub number_below : (row : Row) → number_of row < {len(rows)}",
        f"number_below row = ltb-true (number_of row) {len(rows)} (below row)",
    ]


def write(table, sources):
    names = [row.name for row in table.rows]
    enumeration = "crates/cax64_machine_code/src/row.rt"
    sources.part(enumeration, "variants", [f"    {name}," for name in names])
    sources.part(enumeration, "names", [f'            Row::{name} => "{name}",' for name in names])
    sources.part(enumeration, "rows", all_rows(names))
    sources.part(enumeration, "branches", branch_arms(table.rows))
    places = "crates/cax64_machine_code/proofs/Table.antt"
    variants = "Rattle.cax64_machine_code.specs.declared.row.Row.TheVariants"
    sources.part(places, "variants", [f"use {variants}.{{{', '.join(names)}}}"])
    sources.part(places, "places", [f"place_of {name} = {place}" for place, name in enumerate(names)])
    sources.part("crates/cax64_table/src/packed.rt", "table", packed_table(table.rows))
    sources.part("crates/cax64_table/src/packed.rt", "number", number_function(len(names)))
    sources.part("crates/cax64_table/proofs/Table.antt", "number", number_lemmas(table.rows))
