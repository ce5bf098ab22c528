"""What the reader holds: the core's lines as values, and an index of them: a slot for each opcode of a map, or each digit of
one, and in it a place for each set of prefixes, without W and with it."""

from formatting import filled
from rows import PLACE_MEMORY, PLACE_REGISTER_8, TAIL_NONE, TAIL_REGISTER_8, place_field, tail_field

LINES = "crates/x64_reader/src/lines.rt"
INDEX = "crates/x64_reader/src/index.rt"

# The number that stands where no line does.
NO_LINE = 65535
# From this number on an entry is so much more than the slot of digit 0.
DIGITS_FROM = 32768
# The legacy prefixes, or pp; and the four opcode maps, each with its half behind 0F.
PREFIX_COUNT = 16
MAP_COUNT = 8
EMPTY = (None, None)

# The bits of a set of legacy prefixes, in the order of the struct.
BITS = ("F0", "66", "F2", "F3")


class Unplaced(Exception):
    """A line that the index has no place for, and why."""

    def __init__(self, line, sentence):
        super().__init__(sentence)
        self.line = line


def prefix_value(line):
    """The macro for what stands before an opcode: the digits of a set, F0, 66, F2 and F3, or pp, map and L."""
    code = line.code
    if code.vex:
        kind = "vex" if len(line.registers) == 2 else "vex_1111"
        return f"{kind}!({code.vex.pp}, {code.vex.opcode_map}, {code.vex.l})"
    bits = ", ".join(str(prefix in code.prefixes).lower() for prefix in BITS)
    return f"{'plain' if code.may_have_rex else 'without_rex'}!({bits})"


def tail_value(line):
    if tail_field(line) == TAIL_NONE:
        return "TailField::NoTail"
    digit = line.code.digit
    reg = f"Digit({digit})" if digit is not None else "Register8" if tail_field(line) == TAIL_REGISTER_8 else "Register"
    place = {PLACE_MEMORY: "Memory", PLACE_REGISTER_8: "Register8OrMemory"}.get(place_field(line), "RegisterOrMemory")
    return f"TailField::Modrm(RegField::{reg}, PlaceField::{place})"


def imm_value(line):
    if not line.immediate:
        return "ImmField::NoImm"
    return f"ImmField::{'Simm' if line.immediate.is_signed else 'Imm'}({line.immediate.size // 8})"


def line_value(line):
    code = line.code
    w = "None" if code.w is None else f"Some({code.w})"
    opcode = f"{'escaped' if code.escape else 'byte'}!(0x{code.opcode:02X})"
    return f"line!({prefix_value(line)}, {w}, {opcode}, {tail_value(line)}, {imm_value(line)})"


def lines_table(lines):
    return ["#[rattlefmt::skip]", f"static LINES: [Line; {len(lines)}] = [",
            *(f"    {line_value(line)}, // {line.name}" for line in lines), "];"]


def by_opcode(lines):
    """The lines of each opcode of a map, in the order of maps and opcodes."""
    found = {}
    for line in sorted(lines, key=lambda line: line.code.opcode_in_map):
        found.setdefault(line.code.opcode_in_map, []).append(line)
    return found


def slots_of(lines):
    """The entry of each opcode of a map, and for each slot from 1 on its name and its lines."""
    entries, slots = {}, []
    for opcode, found in by_opcode(lines).items():
        first = len(slots) + 1
        code = found[0].code
        if first + 8 > DIGITS_FROM:
            raise Unplaced(found[0], f"the reader's index has {DIGITS_FROM} slots, and none is left for its opcode")
        name = f"{code.map_name} {code.opcode_name}" if code.vex else code.opcode_name
        if code.digit is None:
            entries[opcode] = first
            slots.append((name, found))
            continue
        entries[opcode] = DIGITS_FROM + first
        slots += [(f"{name[:-1]}{digit}", [line for line in found if line.code.digit == digit]) for digit in range(8)]
    return entries, slots


def places_of(lines):
    """For each set of legacy prefixes, or each pp, the lines without W and with it."""
    places = [EMPTY] * PREFIX_COUNT
    for line in lines:
        place = line.code.prefix_number
        without, with_w = places[place]
        places[place] = (without if line.code.w == 1 else line, with_w if line.code.w == 0 else line)
    return places


def map_lines(entries, number):
    """The entries of a map's opcodes."""
    found = [entries.get((number, byte), 0) for byte in range(256)]
    return ["    [", *filled(map(str, found), "        "), "    ],"] if any(found) else ["    [0; 256],"]


def prefixes_of(lines):
    """The sets of legacy prefixes, or pp, that lines have, by their numbers."""
    return sorted({line.code.prefix_number for line in lines})


def places_table(prefixes):
    """The place in a slot of each set of prefixes, the last one where no line has it."""
    places = [prefixes.index(number) if number in prefixes else len(prefixes) for number in range(PREFIX_COUNT)]
    return [f"static PLACES: [u8; {PREFIX_COUNT}] = [{', '.join(map(str, places))}];"]


def place_value(lines, numbers):
    """The numbers of the lines in a place, without W and with it."""
    return f"[{', '.join(str(numbers[line.name] if line else NO_LINE) for line in lines)}]"


def index_table(slots, prefixes, numbers):
    """The lines in each slot, which has a place for each set of prefixes, and one where no line stands."""
    named = [("no opcode", []), *slots]
    found = ["#[rattlefmt::skip]", f"static INDEX: [[[u16; 2]; {len(prefixes) + 1}]; {len(named)}] = ["]
    for name, lines in named:
        places = places_of(lines)
        values = [place_value(lines, numbers) for lines in [*(places[number] for number in prefixes), EMPTY]]
        found.append(f"    [{', '.join(values)}], // {name}")
    return [*found, "];"]


def write(table, core, sources):
    lines = [*table.rows, *core.lines]
    sources.part(LINES, "lines", lines_table(lines))
    entries, slots = slots_of(lines)
    prefixes, numbers = prefixes_of(lines), {line.name: number for number, line in enumerate(lines)}
    maps = [line for number in range(MAP_COUNT) for line in map_lines(entries, number)]
    sources.part(INDEX, "slots", [f"static SLOTS: [[u16; 256]; {MAP_COUNT}] = [", *maps, "];"])
    sources.part(INDEX, "places", places_table(prefixes))
    sources.part(INDEX, "index", index_table(slots, prefixes, numbers))
