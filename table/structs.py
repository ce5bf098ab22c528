"""The crates of structs: a file for each group, and the list of their names in `lib.rt`."""

from formatting import STRUCT_WIDTH, WIDTH, call, doc, ghost_use, in_order, use
from operands import COUNT_WORDS, immediate_kind, immediate_type, shown_operands, type_of, view

# The styles of text that print otherwise for XED.
STYLES_OF_XED = ("exchange", "shift", "call", "jump", "branch", "compare")

FAMILY = "R R.ReadGpr R.ReadWriteGpr R.WriteGpr R.ReadXmm R.ReadWriteXmm R.WriteXmm"


def has_xed_text(instruction):
    """Whether its struct has a text of XED's own; of the no-operations each has the method."""
    return instruction.style in STYLES_OF_XED or bool(instruction.nop)


def fields(instruction):
    return [f"{operand.name}: {type_of(operand)}" for operand in instruction.operands]


def made(instruction):
    """The expression that makes the struct of its fields."""
    names = [operand.name for operand in instruction.operands]
    if len(", ".join(names)) <= STRUCT_WIDTH:
        return [f"        {instruction.name} {{ {', '.join(names)} }}"]
    return [f"        {instruction.name} {{", *(f"            {name}," for name in names), "        }"]


def new(instruction):
    line = f"    pub fn new({', '.join(fields(instruction))}) -> Self"
    if len(line) > WIDTH:
        parameters = [f"        {field}," for field in fields(instruction)]
        return ["    pub fn new(", *parameters, "    ) -> Self"]
    return [line]


def method_of_xed(instruction):
    """The text as XED prints it, under the names of the struct's family."""
    family, operands, requires, of = "R", "self.now", [], ""
    if instruction.has_registers:
        requires = ["        requires { IsTrue (nameable ⟦<R as RegisterNames>⟧.names self.now) }"]
    else:
        family, operands, of = "Numbers", f"(operands_{instruction.name} self.now)", " {R = Numbers}"
    text = f"text{of} ⟦<{family} as RegisterNames>⟧.names Xed row.{instruction.row} {operands}"
    return [
        "",
        "    /// The text as XED prints it, of registers that are all `nameable`. Fails where there is no memory.",
        "    pub fn to_string_xed<A: Allocator + Copy>(&self, alloc: A) -> Result<String<A>, AllocError>",
        *requires,
        f"        ensures {{ IfOk result (λ t. string_bytes t ≡ {text}) }}",
        "    {",
        "        xed_string(self, alloc)",
        "    }",
    ]


def struct_with_registers(instruction):
    name = instruction.name
    return [
        *doc(instruction.doc),
        "#[derive(Drop)]",
        f"pub struct {name}<R: Registers> {{",
        *(f"    pub {field}," for field in fields(instruction)),
        "}",
        "",
        f"impl<R: Registers> Model for {name}<R> {{",
        f"    ghost Value = {{ Operands {FAMILY} }};",
        "",
        f"    ghost view = {{ λ i. {view(instruction, 'i.')} }};",
        "}",
        "",
        f"impl<R: Registers> {name}<R> {{",
        *new(instruction),
        f"        ensures {{ result ≡ {view(instruction, '')} }}",
        "    {",
        *made(instruction),
        "    }",
        *(method_of_xed(instruction) if has_xed_text(instruction) else []),
        "}",
        "",
        f"impl<R: Registers> RowAndOperands for {name}<R> {{",
        "    type Family = R;",
        "",
        f"    ghost row_of = {{ λ _. row.{instruction.row} }};",
        "",
        "    ghost operands_of = { λ i. i };",
        "",
        *hand_to(instruction, "R"),
        "",
        "    fn visit<V: RegisterVisitor<R>>(&mut self, visitor: &mut V) {",
        *(f"        {operand.visit};" for operand in shown_operands(instruction) if operand.visit),
        "    }",
        "}",
    ]


def hand_to(instruction, family):
    """The call that gives the row and the operands to a task."""
    operands = [operand.code for operand in shown_operands(instruction)]
    return [
        "    #[tactic(auto, unfolding(cax64_operand::specs::Signature::signature_of))]",
        "    #[inline(always)]",
        f"    fn hand_to<T: Task<{family}, X>, X>(&self, to: &mut X) -> T::Answer {{",
        "        T::take(",
        *call(f"of_{COUNT_WORDS[len(operands)].lower()}", operands, "            "),
        f"            Row::{instruction.row},",
        "            to,",
        "        )",
        "    }",
    ]


def hand_to_of_nop(instruction):
    return [
        "    #[inline(always)]",
        "    fn hand_to<T: Task<Numbers, X>, X>(&self, to: &mut X) -> T::Answer {",
        f"        T::take(T::nop(Nop::{COUNT_WORDS[instruction.nop]}), Row::{instruction.row}, to)",
        "    }",
    ]


def struct_of_distance(instruction):
    """The struct of a branch by a distance, and what makes it."""
    field = instruction.operands[0].name
    declared = [f"pub struct {instruction.name} {{", *(f"    pub {text}," for text in fields(instruction)), "}"]
    return declared, [*new(instruction), f"        ensures {field} {{ result.{field} ≡ {field} }}", "    {",
                      *made(instruction), "    }"]


def struct_of_nop(instruction):
    """The struct of a no-operation, which has one value."""
    return [f"pub struct {instruction.name};"], ["    pub fn new() -> Self {", f"        {instruction.name}", "    }"]


def struct_without_registers(instruction):
    """Its list of operands is a word of `specs/Operands.antt`, and a visit of it takes any family."""
    name = instruction.name
    operands = f"operands_{name} {{R = R}}"
    declared, makes = (struct_of_nop if instruction.nop else struct_of_distance)(instruction)
    return [
        *doc(instruction.doc),
        "#[derive(Drop)]",
        *declared,
        "",
        f"impl {name} {{",
        *makes,
        "",
        "    /// It has no registers; the visitor stays as it is.",
        "    pub fn visit<R: Registers, V: RegisterVisitor<R>>(&mut self, visitor: &mut V)",
        "        ensures { OperandsRun R.WriteGpr.eq V.steps visitor.old "
        f"({operands} self.old) ({operands} self.new) visitor.new }}",
        "    {}",
        *(method_of_xed(instruction) if has_xed_text(instruction) else []),
        "}",
        "",
        f"impl RowAndOperands for {name} {{",
        "    type Family = Numbers;",
        "",
        f"    ghost row_of = {{ λ _. row.{instruction.row} }};",
        "",
        f"    ghost operands_of = {{ operands_{name} }};",
        "",
        *(hand_to_of_nop(instruction) if instruction.nop else hand_to(instruction, "Numbers")),
        "",
        "    fn visit<V: RegisterVisitor<Numbers>>(&mut self, visitor: &mut V) {",
        f"        {name}::visit(self, visitor);",
        "    }",
        "}",
    ]


class Needs:
    """What the structs of a file name of other crates. All of them have registers, or none."""

    def __init__(self, instructions):
        self.instructions = instructions
        self.has_registers = instructions[0].has_registers
        self.has_xed_text = any(has_xed_text(instruction) for instruction in instructions)
        self.nops = [instruction for instruction in instructions if instruction.nop]
        encoded = [instruction for instruction in instructions if not instruction.nop]
        self.lists = [shown_operands(instruction) for instruction in encoded]
        self.shown = [operand for operands in self.lists for operand in operands]
        self.operands = [operand for instruction in encoded for operand in instruction.operands]

    def of_kind(self, kind):
        return [operand for operand in self.operands if operand.kind == kind]

    def said(self, name):
        """What the operands say of this, each word once and in order."""
        return in_order({getattr(operand, name) for operand in self.shown} - {None})

    def counts(self):
        """How many operands the lists have."""
        return in_order({COUNT_WORDS[len(operands)] for operands in self.lists})


def prelude(needs):
    """The names of the prelude, in the order in which the clauses use them."""
    names = ["◌≡◌"]
    if needs.has_xed_text:
        names += ["IsTrue", "IfOk", "string_bytes"] if needs.has_registers else ["IfOk", "string_bytes"]
    return names + needs.said("printed")


def ghost_uses_of_lists(needs):
    """What the clauses of structs with registers use, whose list of operands is written out."""
    declared = "cax64_operand.specs.declared"
    extension = "cax64_immediate.specs.declared.extension.Extension.TheVariants"
    lines = [ghost_use(extension, needs.said("extension"))] if needs.said("extension") else []
    if needs.of_kind("immediate"):
        lines.append(f"ghost use Rattle.{declared}.immediate.Immediate.TheVariants as immediate;")
    lines.append(ghost_use(f"{declared}.operand.Operand.TheVariants", needs.said("kind")))
    lines.append(ghost_use(f"{declared}.operand.Operands", ["Operands"]))
    lines.append(ghost_use(f"{declared}.operand.Operands.TheVariants", needs.counts()))
    if needs.said("size"):
        lines.append(ghost_use("cax64_register.specs.declared.gpr.Size.TheVariants", needs.said("size")))
    if needs.has_xed_text:
        lines.append(ghost_use("cax64_text.specs.Text", ["nameable", "text"]))
    return lines


def ghost_uses_of_words(crate, needs):
    """What the clauses of structs without registers use, whose list of operands is a word of the crate's specs."""
    lines = [
        ghost_use("cax64_operand.specs.Visit", ["OperandsRun"]),
        ghost_use("cax64_operand.specs.declared.instruction.Numbers", ["Numbers"]),
    ]
    if needs.has_xed_text:
        lines.append(ghost_use("cax64_text.specs.Text", ["text"]))
    words = [f"operands_{instruction.name}" for instruction in needs.instructions]
    return [*lines, ghost_use(f"{crate}.specs.Operands", words)]


def ghost_uses(crate, needs):
    lines = [ghost_use("std.specs.Prelude", prelude(needs))]
    if needs.has_xed_text:
        lines.append(ghost_use("cax64_address.specs.declared.text.Dialect.TheVariants", ["Xed"]))
    lines.append("ghost use Rattle.cax64_machine_code.specs.declared.row.Row.TheVariants as row;")
    return lines + (ghost_uses_of_lists(needs) if needs.has_registers else ghost_uses_of_words(crate, needs))


def names_of_operand_crate(needs):
    names = ["RegisterVisitor", "RowAndOperands", "Task"]
    names += ["Operand"] if needs.shown else []
    names += ["Immediate"] if needs.of_kind("immediate") else []
    names += [] if needs.has_registers else ["Numbers"]
    names += ["Nop"] if needs.nops else []
    names += ["visit_two_gprs"] if "WriteTwoGprs" in needs.said("kind") else []
    return names + [f"of_{count.lower()}" for count in needs.counts()]


def names_of_register_crate(needs):
    types = {"fixed": "Fixed", "general": "Gpr", "vector": "Xmm"}
    names = [name for kind, name in types.items() if needs.of_kind(kind)]
    return ["Registers", *names, *(["Size"] if needs.said("size") else [])]


def uses(needs):
    lines = ["use cax64_address::amode::Amode;"] if needs.of_kind("memory") else []
    places = {"general or memory": "GprMem", "vector or memory": "XmmMem"}
    lines += use("cax64_address::operand", [name for kind, name in places.items() if needs.of_kind(kind)])
    immediates = {immediate_type(operand) for operand in needs.of_kind("immediate")}
    lines += use("cax64_immediate", immediates | ({"Extension"} if needs.said("extension") else set()))
    lines.append("use cax64_machine_code::row::Row;")
    lines += use("cax64_operand", names_of_operand_crate(needs))
    lines += use("cax64_register", names_of_register_crate(needs))
    if needs.has_xed_text:
        lines += ["use cax64_text::{RegisterNames, xed_string};", "use std::alloc::{AllocError, Allocator};"]
    return lines + (["use std::marker::Model;"] if needs.has_registers else [])


def file_of(group, instructions):
    """The file of a group."""
    needs = Needs(instructions)
    lines = [f"//! {group.doc}", "", *ghost_uses(group.crate, needs), "", *uses(needs)]
    struct = struct_with_registers if needs.has_registers else struct_without_registers
    for instruction in instructions:
        lines += ["", *struct(instruction)]
    return lines


def modules(table, crate):
    """The modules of a crate, and the structs that it gives."""
    files = [group.file for group in table.groups if group.crate == crate]
    lines = [f"mod {file};" for file in sorted(files)] + [""]
    for file in in_order(files):
        names = [instruction.name for instruction in table.of_group(f"{crate}/{file}")]
        lines += use(file, names, keyword="pub use")
    return lines


def uses_of_operands(instructions):
    """What the lists of operands of structs without registers use."""
    declared = "Rattle.cax64_operand.specs.declared"
    nops = [COUNT_WORDS[instruction.nop] for instruction in instructions if instruction.nop]
    kinds = {immediate_kind(instruction.operands[0], instruction)[0] for instruction in instructions
             if not instruction.nop}
    lines = []
    if nops:
        lines.append(f"use {declared}.nop.Nop.TheVariants.{{{', '.join(nops)}}}")
    if kinds:
        lines.append(f"use {declared}.immediate.Immediate.TheVariants.{{{', '.join(in_order(kinds))}}}")
        lines.append(f"use {declared}.operand.Operand.TheVariants.{{Imm}}")
    lists = (["Nop"] if nops else []) + (["One"] if kinds else [])
    lines.append(f"use {declared}.operand.Operands.{{Operands}}")
    return [*lines, f"use {declared}.operand.Operands.TheVariants.{{{', '.join(lists)}}}"]


def operands_word(instruction):
    name = instruction.name
    if instruction.nop:
        value = f"Nop {COUNT_WORDS[instruction.nop]}"
    else:
        kind, _ = immediate_kind(instruction.operands[0], instruction)
        value = f"One (Imm ({kind} i.{instruction.operands[0].name}))"
    return [f"abbrev pub operands_{name} : {{R A B C D E F : Type 0}} → {name} → Operands R A B C D E F",
            f"operands_{name} i = {value}"]


def operands_without_registers(crate, instructions):
    """The lists of operands of a crate's structs without registers."""
    lines = uses_of_operands(instructions)
    for instruction in instructions:
        name = instruction.name
        lines.append(f"use Rattle.{crate}.specs.declared.{instruction.group.file}.{name}.{{{name}}}")
    lines += ["", "-- The operands of each instruction, in the order of visits."]
    for instruction in instructions:
        lines += ["", *operands_word(instruction)]
    return lines


def write(table, sources):
    for group in table.groups:
        sources.whole(f"crates/{group.crate}/src/{group.file}.rt", file_of(group, table.of_group(group.name)))
    for crate in table.crates:
        sources.part(f"crates/{crate}/src/lib.rt", "modules", modules(table, crate))
        without = [instruction for instruction in table.of_crate(crate) if not instruction.has_registers]
        if without:
            sources.whole(f"crates/{crate}/specs/Operands.antt", operands_without_registers(crate, without))
