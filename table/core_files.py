"""The sources that the lines of the core give: what is believed of them, packed numbers, and constants."""

from itertools import groupby

from core_lines import CORE, immediate_type, shape_of
from effects import FLAGS as FLAG_PLACES
from formatting import filled, in_order, use
from rows import hexadecimal, packed, uses_8bit

SPECS = "crates/x64_lines/specs/Lines.antt"
NUMBERS = "crates/x64_lines/src/lines.rt"
HEADS = "crates/x64_core/src/heads.rt"
SHAPES = "crates/x64_lines/src/shapes.rt"
OPERAND_LISTS = "crates/x64_lines/src/operand_lists.rt"
OPERAND_SPANS = "crates/x64_lines/src/operand_spans.rt"
FLAGS = "crates/x64_lines/src/flags.rt"
EXTENSION_TABLE = "crates/x64_lines/src/extension.rt"
OPS = "crates/x64_core/src/ops"

# How many constants a law speaks of at most: what it takes the prover grows with the square of them, to gigabytes.
MOST_OF_A_LAW = 64

SETS = {(): "no_legacy", ("F0",): "F0", ("66", "F0"): "F0_66", ("66",): "only_66", ("F2",): "only_F2", ("F3",): "only_F3"}

# The words of Rows.antt that lines are said in.
WORDS = ("all_rows", "plain", "without_rex", "any", "W0", "W1", "F0", "F0_66", "only_66", "only_F2", "only_F3", "byte", "escaped")

HEAD = """\
use Rattle.std.specs.Prelude.{true, false, List, [], ◌∷◌, ◌++◌}
use Rattle.cax64_machine_code.specs.Prefix.{no_legacy}
use Rattle.cax64_machine_code.specs.ReadLine.{lines_of}
use Rattle.cax64_machine_code.specs.Rows.{@}
use Rattle.cax64_machine_code.specs.declared.line.LegacySet.{LegacySet}
use Rattle.cax64_machine_code.specs.declared.line.Line.{Line}
use Rattle.cax64_machine_code.specs.declared.line.ImmField.TheVariants.{NoImm, Imm, Simm}
use Rattle.cax64_machine_code.specs.declared.line.PlaceField.TheVariants.{Memory, RegisterOrMemory, Register8OrMemory}
use Rattle.cax64_machine_code.specs.declared.line.RegField.TheVariants.{Digit, Register8, Register}
use Rattle.cax64_machine_code.specs.declared.line.TailField.TheVariants.{NoTail, Modrm}

-- The lines of the core: those of all rows, in the order of `all_rows`, and behind them a line for each instruction of
-- the core, in the words of the rows' own table. (Intel SDM, volume 2, chapters 3 to 5, the pages of the named
-- instructions.)"""

# The bits of a set of legacy prefixes, in the order of the record.
BITS = (("lock", "F0"), ("operand_size", "66"), ("repne", "F2"), ("rep", "F3"))


def set_name(prefixes):
    """The word of a set of legacy prefixes: that of Rows.antt, or one that is defined beside the lines."""
    return SETS.get(prefixes) or f"with_{'_'.join(prefixes)}"


def set_definition(prefixes):
    bits = "; ".join(f"{name} = {str(prefix in prefixes).lower()}" for name, prefix in BITS)
    return [
        "",
        f"-- the prefixes {' and '.join(prefixes)}",
        f"abbrev pub {set_name(prefixes)} : LegacySet",
        f"{set_name(prefixes)} = record {{ {bits} }}",
    ]


def prefix_words(code):
    kind = "plain" if code.may_have_rex else "without_rex"
    return f"{kind} {set_name(tuple(sorted(code.prefixes)))}"


def tail_words(line):
    if not line.code.has_modrm:
        return "NoTail"
    digit, place = line.code.digit, line.place
    reg = f"(Digit {digit})" if digit is not None else "Register8" if line.registers[0].size == 8 else "Register"
    if place.kind == "memory":
        return f"(Modrm {reg} Memory)"
    return f"(Modrm {reg} {'Register8OrMemory' if place.kind == 'general or memory' and place.size == 8 else 'RegisterOrMemory'})"


def imm_words(line):
    if not line.immediate:
        return "NoImm"
    return f"({'Simm' if line.immediate.is_signed else 'Imm'} {line.immediate.size // 8})"


def line_words(line):
    """A line in the words of Rows.antt."""
    code = line.code
    w = "any" if code.w is None else f"W{code.w}"
    opcode = f"({'escaped' if code.escape else 'byte'} 0x{code.opcode:02X})"
    return f"{prefix_words(code)} {w} {opcode} {tail_words(line)} {imm_words(line)}"


def name_of(file):
    return f"{file}_lines"


def lists(core):
    """A list for each file of constants."""
    for file in core.files:
        yield from ["", f"unfoldable pub {name_of(file)} : List Line", f"{name_of(file)} ="]
        for line in core.of_file(file):
            yield f"    {line_words(line)} ∷  -- {line.name}"
        yield "    []"


def spec(core):
    """The lists of lines, and all of them behind one another."""
    found = list(lists(core))
    used = {word for line in found for word in line.replace("(", " ").split()}
    words = ", ".join(word for word in WORDS if word == "all_rows" or word in used)
    lines = HEAD.replace("@", words).split("\n")
    for prefixes in sorted({tuple(sorted(line.code.prefixes)) for line in core.lines}):
        if prefixes not in SETS:
            lines += set_definition(prefixes)
    parts = " ++ (".join(["lines_of all_rows", *map(name_of, core.files)]) + ")" * len(core.files)
    return [*lines, *found, "", "-- all of them", "unfoldable pub core_lines : List Line", f"core_lines = {parts}"]


def numbers(rows):
    """How many lines there are, and their packed numbers."""
    return [
        "/// How many lines the core has.",
        f"pub const COUNT: u16 = {len(rows)};",
        "",
        "/// The rows, and behind them the lines of `table/core.txt`, each named beside its number.",
        f"const NUMBERS: [u64; {len(rows)}] = [",
        *(f"    {hexadecimal(packed(row))}, // {row.name}" for row in rows),
        "];",
    ]


def head(line, is_special, is_high):
    """What stands in front of the tail, by whether a register that may be one of 8 bits has a number of 4 to 7, and whether
    R, X or B is 1; the layout stands above `HEADS` in heads.rt. A line with VEX has 0, which nobody asks for."""
    code = line.code
    if code.vex:
        return 0
    rex = 0x40 | (code.w == 1) << 3
    has_rex = rex != 0x40 or is_high or is_special and uses_8bit(line)
    held = [*code.legacy_bytes, *([rex] if has_rex else []), *code.opcode_bytes]
    return int.from_bytes(held, "little") << 16 | 8 * len(code.legacy_bytes) << 8 | len(held)


def heads(lines):
    """Four numbers a line, which the formatter would put one by one."""
    found = ["#[rattlefmt::skip]", f"const HEADS: [[u64; 4]; {len(lines)}] = ["]
    for line in lines:
        numbers = [hexadecimal(head(line, is_special, is_high)) for is_special in (False, True) for is_high in (False, True)]
        found.append(f"    [{', '.join(numbers)}], // {line.name}")
    return [*found, "];"]


def shapes(lines):
    """The operands that each line takes."""
    found = [f"static SHAPES: [OpShape; {len(lines)}] = ["]
    for line in lines:
        kind = immediate_type(line).upper() if line.immediate else "None"
        found.append(f"    OpShape {{ fields: OpFields::{shape_of(line)}, imm: OpImm::{kind} }}, // {line.name}")
    return ["#[rattlefmt::skip]", *found, "];"]


def kind_record(use):
    """What an operand is, as the code has it."""
    home = f"Fixed({use.number})" if use.home == "Fixed" else use.home
    return (f"LineOperand {{ home: Home::{home}, class: Class::{use.kind}, access: Access::{use.access}, bits: {use.bits}, "
            f"is_printed: {str(use.is_printed).lower()} }}")


def kinds(uses):
    """The different lists of operands, one behind the other, and for each line where its list stands."""
    firsts, records = {}, []
    for line in uses:
        if line.uses not in firsts:
            firsts[line.uses] = len(records)
            records += map(kind_record, line.uses)
    spans = [f"    Span {{ first: {firsts[line.uses]}, count: {len(line.uses)} }}, // {line.name}" for line in uses]
    return (["#[rattlefmt::skip]", f"pub(crate) static OPERANDS: [LineOperand; {len(records)}] = [", *(f"    {record}," for record in records), "];"],
            ["#[rattlefmt::skip]", f"pub(crate) static SPANS: [Span; {len(uses)}] = [", *spans, "];"])


def flag_bits(names):
    """A set of flags, each at its place."""
    return f"{sum(1 << FLAG_PLACES[name] for name in names):#05x}"


def flags(uses):
    """The flags that each line reads, writes and leaves undefined."""
    found = [f"    flags!({flag_bits(line.read)}, {flag_bits(line.written)}, {flag_bits(line.undefined)}), // {line.name}" for line in uses]
    return ["#[rattlefmt::skip]", f"static FLAGS: [Flags; {len(uses)}] = [", *found, "];"]


def extensions(lines):
    """The extension that each line asks for."""
    found = [f"    Some(Extension::{line.extension.capitalize()}), // {line.name}" if line.extension else f"    None, // {line.name}"
             for line in lines]
    return [f"static EXTENSIONS: [Option<Extension>; {len(lines)}] = [", *found, "];"]


def constant_name(line):
    return line.name.upper()


def type_of(line):
    """The type of a line's constant, without its parameter."""
    shape = shape_of(line)
    if not line.immediate:
        return shape
    return "Imm" if shape == "Bare" else f"{shape}Imm"


def constant(line, number):
    """A constant, with what it stands for in the manual's words."""
    operands = ", ".join(operand.name for operand in line.operands if not operand.implicit and operand.kind != "nop")
    kind, parameter = type_of(line), f"<{immediate_type(line)}>" if line.immediate else ""
    macro = "with_imm" if line.immediate else "without_imm"
    return [
        f"/// `{line.printed_mnemonic} {operands}`." if operands else f"/// `{line.printed_mnemonic}`.",
        f"pub const {constant_name(line)}: {kind}{parameter} = {macro}!({kind}, {number});",
    ]


def law(name, lines, first):
    """That constants are the lines from the first one's number on, in their order."""
    return [
        "",
        "/// Each constant is the line behind that of the one before it.",
        "#[rattlefmt::skip]",
        f"fn {name}() -> [Op; {len(lines)}]",
        f"    ensures {{ map (λ op. op.number) result ≡ range_with_len {first} {len(lines)} }}",
        "{",
        "    [",
        *filled([f"{constant_name(line)}.op()" for line in lines], "        "),
        "    ]",
        "}",
    ]


def laws(lines, first):
    """Laws of all constants of a file, each of as many as a law has at most."""
    count = -(-len(lines) // MOST_OF_A_LAW)
    size = -(-len(lines) // count)
    for at in range(0, len(lines), size):
        name = "in_order" if count == 1 else f"in_order_from_{lines[at].name}"
        yield from law(name, lines[at:at + size], first + at)


def constants(about, groups):
    """A file of constants: of each group what it is about, and its lines; and the number of the first line."""
    lines = [line for _, found, _ in groups for line in found]
    macros = sorted({"with_imm" if line.immediate else "without_imm" for line in lines})
    text = [
        f"//! {about}",
        "",
        "ghost use Rattle.std.specs.Prelude.{◌≡◌, map};",
        "ghost use Rattle.std.specs.List.{range_with_len};",
        "",
        *use("crate::makers", sorted({type_of(line) for line in lines})),
        *(["use std::marker::PhantomData;"] if "with_imm" in macros else []),
        "use x64_lines::Op;",
    ]
    for doc, found, number in groups:
        text += ["", f"// {doc}", ""]
        for place, line in enumerate(found):
            text += constant(line, number + place)
    return [*text, *laws(lines, groups[0][2])]


def groups_of_rows(rows):
    """Rows that stand together and are of one group, with the number of the first."""
    first = 0
    for group, found in groupby(rows, lambda row: row.group):
        found = list(found)
        yield group.doc, found, first
        first += len(found)


def groups_of_file(core, file, rows):
    """The groups of a file of constants."""
    numbers_of = {line.name: number for number, line in enumerate(core.lines, rows)}
    for group in core.groups:
        found = [line for line in core.lines if line.group == group]
        if group.file == file and found:
            yield group.doc, found, numbers_of[found[0].name]


def ops_module(files):
    """The module of constants, which names each of its files."""
    return [f"pub mod {file};" for file in in_order(["rows", *files])]


def write(table, core, uses, sources):
    lines = [*table.rows, *core.lines]
    sources.whole(SPECS, spec(core), CORE)
    sources.part(NUMBERS, "numbers", numbers(lines))
    sources.part(HEADS, "heads", heads(lines))
    sources.part(SHAPES, "shapes", shapes(lines))
    lists, spans = kinds(uses)
    sources.part(OPERAND_LISTS, "kinds", lists)
    sources.part(OPERAND_SPANS, "spans", spans)
    sources.part(FLAGS, "flags", flags(uses))
    sources.part(EXTENSION_TABLE, "extensions", extensions(lines))
    sources.part(f"{OPS}.rt", "files", ops_module(core.files))
    about = "The rows of the assembler, which come first in the core."
    sources.whole(f"{OPS}/rows.rt", constants(about, list(groups_of_rows(table.rows))), CORE)
    for file in core.files:
        about = f"{core.abouts[file]}"
        sources.whole(f"{OPS}/{file}.rt", constants(about, list(groups_of_file(core, file, len(table.rows)))), CORE)
