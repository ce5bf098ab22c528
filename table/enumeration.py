"""The enumeration of all instructions: its variants, what hands them on and visits them, and its `From`s."""

from formatting import in_order, use
from judging import COVERED_VARIANTS, VARIANTS
from operands import COUNT_WORDS, immediate_kind

CRATE = "crates/cax64_inst"

UNFOLDED = "crate::specs::Inst::row_of, crate::specs::Inst::operands_of, crate::specs::Group::group_of"

TYPES = "{R A B C D E F : Type 0} → Inst R A B C D E F"


def variants(table):
    """The structs in the order of the table. Those with registers need a place that the borrow checker covers: where
    one would stand behind, the last ones without registers before it go to the end."""
    structs = table.structs
    count = 1 + max((place for place, struct in enumerate(structs) if struct.has_registers), default=-1)
    free = [struct for struct in structs[:count] if not struct.has_registers]
    moved = free[len(free) - (count - COVERED_VARIANTS):] if count > COVERED_VARIANTS else []
    return [struct for struct in structs if struct not in moved] + moved


def type_of(struct):
    return f"{struct.name}<R>" if struct.has_registers else struct.name


def uses_one_by_one(table, others, indent="", keyword="use"):
    """A line for each struct, and for each of the other items, in order of crates."""
    names = {}
    for struct in table.structs:
        names.setdefault(struct.group.crate, []).append(struct.name)
    for crate, name in others:
        names.setdefault(crate, []).append(name)
    lines = []
    for crate in sorted(names):
        for name in in_order(names[crate]):
            lines.append(f"{indent}{keyword} {crate}::{name};")
    return lines


def distance_arm(struct):
    name, operand = struct.name, struct.operands[0]
    kind, _ = immediate_kind(operand, struct)
    return [
        f"            &Inst::{name}({name} {{ {operand.name} }}) => give_distance::<{name}, R, T, X>(",
        f"                Immediate::{kind}({operand.name}.value()),",
        f"                Row::{struct.row},",
        "                to,",
        "            ),",
    ]


def nop_arm(struct):
    name = struct.name
    given = f"Nop::{COUNT_WORDS[struct.nop]}, Row::{struct.row}, to"
    return f"            Inst::{name}(_) => give_nop::<{name}, R, T, X>({given}),"


def tasks(structs):
    """The arms that hand on what is within: with registers, no-operations, branches by a distance."""
    with_registers = [struct for struct in structs if struct.has_registers]
    lines = [f"            Inst::{struct.name}(i) => give::<_, T, X>(i, to)," for struct in with_registers]
    lines += [nop_arm(struct) for struct in structs if struct.nop]
    for struct in structs:
        if not struct.has_registers and not struct.nop:
            lines += distance_arm(struct)
    return lines


def visited(table):
    """The structs that each function visits."""
    return {function: [struct for group in groups for struct in table.of_group(group)]
            for function, groups in table.visits.items()}


def visit_arms(table, structs):
    """The arms that tell by which function a struct is visited."""
    lines = [f"            Inst::{struct.name}(_) => self.visit_{function}(visitor),"
             for function, found in visited(table).items() for struct in found]
    return lines + [f"            Inst::{struct.name}(_) => {{}}" for struct in structs if not struct.has_registers]


def visit_function(function, number, structs):
    return [
        f"    #[tactic(auto, unfolding({UNFOLDED}))]",
        "    #[inline(always)]",
        f"    fn visit_{function}<V: RegisterVisitor<R>>(&mut self, visitor: &mut V)",
        f"        requires {{ group_of self.old ≡ {number} }}",
        "        ensures run { OperandsRun R.WriteGpr.eq V.steps visitor.old "
        "(operands_of self.old) (operands_of self.new) visitor.new }",
        "        ensures row { row_of self.new ≡ row_of self.old }",
        "    {",
        "        match self {",
        *(f"            Inst::{struct.name}(i) => i.visit(visitor)," for struct in structs),
        "            _ => {}",
        "        }",
        "    }",
    ]


def visit_functions(table):
    lines = ["    /// Visits what is within, which is of the first group. So do the others, each with its group."]
    for number, (function, structs) in enumerate(visited(table).items()):
        lines += [""] * (number > 0) + visit_function(function, number, structs)
    return lines


def groups(table):
    lines = [
        "use Rattle.std.specs.Prelude.{ℕ}",
        "use Rattle.cax64_inst.specs.declared.Inst.{Inst}",
        "use Rattle.cax64_inst.specs.declared.Inst.TheVariants as inst",
        "",
        "-- The group of variants whose function visits an instruction. Words of the proof's own steps.",
        "",
        f"unfoldable pub group_of : {TYPES} → ℕ",
    ]
    for number, structs in enumerate(visited(table).values()):
        lines += [f"group_of (inst.{struct.name} i) = {number}" for struct in structs]
    return [*lines, f"group_of others = {len(table.visits)}"]


def operands_of(struct):
    return "i" if struct.has_registers else f"{struct.group.crate}.operands_{struct.name} i"


def words(structs):
    """What an instruction of the enumeration is, in the clauses' words."""
    crates = sorted({struct.group.crate for struct in structs if not struct.has_registers})
    return [
        "use Rattle.cax64_machine_code.specs.declared.row.Row.{Row}",
        "use Rattle.cax64_machine_code.specs.declared.row.Row.TheVariants as row",
        "use Rattle.cax64_operand.specs.declared.operand.Operands.{Operands}",
        *(f"use Rattle.{crate}.specs.Operands as {crate}" for crate in crates),
        "use Rattle.cax64_inst.specs.declared.Inst.{Inst}",
        "use Rattle.cax64_inst.specs.declared.Inst.TheVariants as inst",
        "",
        "-- An instruction of the enumeration is the one within.",
        "",
        f"unfoldable pub row_of : {TYPES} → Row",
        *(f"row_of (inst.{struct.name} i) = row.{struct.row}" for struct in structs),
        "",
        f"unfoldable pub operands_of : {TYPES} → Operands R A B C D E F",
        *(f"operands_of (inst.{struct.name} i) = {operands_of(struct)}" for struct in structs),
    ]


def from_impl(struct):
    name, of = struct.name, type_of(struct)
    return [
        "",
        f"impl<R: Registers> From<{of}> for Inst<R> {{",
        f"    ghost from_gives = {{ λ i result. result ≡ inst.{name} i }};",
        "",
        f"    fn from(i: {of}) -> Inst<R> {{",
        f"        Inst::{name}(i)",
        "    }",
        "}",
    ]


def from_file(crate, structs):
    uses = use(crate, [struct.name for struct in structs])
    register = ["use cax64_register::Registers;"]
    lines = [
        "//! Each of these instructions as one of all.",
        "",
        "ghost use Rattle.std.specs.Prelude.{◌≡◌};",
        "ghost use Rattle.cax64_inst.specs.declared.Inst.TheVariants as inst;",
        "",
        "use crate::Inst;",
        *(uses + register if crate < "cax64_register" else register + uses),
    ]
    for struct in structs:
        lines += from_impl(struct)
    return lines


# The parameters that the prover's words of a `From` of this enumeration take: its seven types, their laws, those that
# are copied, the types of its fields and their denotations, and bounds.
TYPE_NAMES = " ".join(f"t{n}" for n in range(1, 8))
GIVEN = " ".join([TYPE_NAMES, *(f"l{n}" for n in range(1, 8)), *(f"c{n}" for n in range(2, 8)),
                  *(f"g{n} d{n}" for n in range(1, 20))])
BOUNDS = " ".join(f"b{n}" for n in range(1, 20))
DENOTATIONS = " ".join(f"d{n}" for n in range(1, 20))
FIELDS = " ".join(f"g{n}" for n in (2, 4, 5, 7, 8, 10, 11, 13, 14, 16, 17, 19))
PARAMETERS = "(param 0 t1) " + " ".join(f"(copied {n} t{n + 1})" for n in range(1, 7))
LAWS = "(param_laws 0 t1 l1) " + " ".join(f"(copied_laws {n} t{n + 1} l{n + 1})" for n in range(1, 7))
TYPE_TUPLE = "".join(f"(t{n}, " for n in range(1, 8)) + "tt" + ")" * 7
DENOTATION_LIST = "".join(f"(dcons d{n} " for n in range(1, 20)) + "dnil" + ")" * 19
READ_WORDS = ("Ghost", "requires", "ensures", "pre_read", "Pinned", "Owned", "post_read")


def uses_of_proof(struct, within):
    return [
        "use mathlib.Core.List.{[], ◌∷◌}",
        "use mathlib.Core.Path.{refl}",
        "use mir.Syntax.{a_type, Args, dcons, dnil}",
        "use mir.MapTy.{inst_fn}",
        "use contract.Running.{tables_of}",
        "use denote.Param.{bounded, param, copied}",
        "use denote.Param.Laws.{param_laws, copied_laws}",
        "use borrow.Enum.Known.{at}",
        "use borrow.Enum.Open.{loose_at}",
        "use borrow.Fn.Run.{Over}",
        "use borrow.Fn.World.{World}",
        "use borrow.Fn.Written.{close}",
        f"use Rattle.{struct.group.crate}.specs.contracts.{struct.group.file}.{struct.name}.{{the_type as struct}}",
        "use Rattle.cax64_inst.specs.contracts.Inst.{enum}",
        "use Rattle.cax64_inst.proofs.Inst.TheLaws.{the_loose}",
        "use Rattle.cax64_inst.proofs.Making as making",
        f"use Rattle.cax64_inst.specs.contracts.{within}.Key as key",
        f"use Rattle.cax64_inst.proofs.{within}.Statement.{{statement}}",
        f"use Rattle.cax64_inst.proofs.{within}.Code as code",
        f"use Rattle.cax64_inst.proofs.{within}.Kinds as kinds",
        f"use Rattle.cax64_inst.proofs.{within}.Reads as reads",
    ]


def proof(struct, number):
    """The proof of the `From` of a variant that the borrow checker doesn't cover."""
    within = f"from_{struct.group.crate}.InstFrom{struct.name.capitalize()}.from"
    reads = " ".join(f"(reads.{word} {GIVEN})" for word in READ_WORDS)
    kinds = f"(kinds.ps {GIVEN})"
    at = f"(loose_at N.parts ll {number}) (at N {number}) (making.pays N {number}) (making.tags N {number})"
    late = f"(making.late {VARIANTS - number} tt)"
    # A struct without a field is passed as a copy; what its lemma takes besides is found from the parameter's kind.
    lemma, besides = ("copied", " _ _ _") if struct.nop else ("moved", "")
    laws = f"making.{lemma} 7 struct N ll tt {number} _ {late} tt {at}{besides} (making.the_one {kinds} tt).laws"
    return [
        f"-- the {number}th variant, which the borrow checker does not cover: Making.antt has the proof",
        *uses_of_proof(struct, within),
        "",
        "pub from_spec : {M : Type 1} → statement M",
        "unfolding tables_of",
        f"from_spec {{M}} 𝓤 𝓛 𝓜 𝓡 w {GIVEN} {BOUNDS} =",
        f"    let N = enum {PARAMETERS} {FIELDS} in",
        f"    let ll = the_loose {PARAMETERS} {FIELDS} {LAWS} in",
        "    let here : World = record { M = M; 𝓤 = 𝓤; 𝓛 = 𝓛; 𝓜 = 𝓜; 𝓡 = 𝓡 } in",
        f"    let here_args : Args = bounded ({'a_type ∷ ' * 7}[]) {TYPE_TUPLE} {DENOTATION_LIST} in",
        "    let f = inst_fn here_args code.function in",
        f"    close 7 {kinds} (kinds.r {GIVEN}) {reads}",
        f"    here 𝓡.env (key.name here_args) f (code.unfolded 𝓤 𝓛.H 𝓜 𝓡 w {TYPE_TUPLE} {DENOTATIONS})",
        f"    (λ κs a g. tt) (λ κs. reads.owns {GIVEN} κs here) (reads.passes {GIVEN} here)",
        f"    (λ g. {laws}",
        f"    (reads.Pre {GIVEN}) (reads.Post {GIVEN}) (λ κs a p e. refl) 𝓤 𝓛 (Over 𝓛 𝓜 𝓡 𝓡.env) f refl refl)",
    ]


def write_proofs(structs, sources):
    for number, struct in enumerate(structs):
        if number >= COVERED_VARIANTS:
            folder = f"{CRATE}/proofs/from_{struct.group.crate}/InstFrom{struct.name.capitalize()}/from"
            sources.whole(f"{folder}/Proof.antt", proof(struct, number))


def write(table, sources):
    structs = variants(table)
    others = [("cax64_operand", name) for name in ("RegisterVisitor", "RowAndOperands", "Task")]
    others.append(("cax64_register", "Registers"))
    sources.part(f"{CRATE}/src/lib.rt", "uses", uses_one_by_one(table, others))
    sources.part(f"{CRATE}/src/lib.rt", "variants", [f"    {struct.name}({type_of(struct)})," for struct in structs])
    sources.part(f"{CRATE}/src/tasks.rt", "arms", tasks(structs))
    without = [struct for struct in structs if not struct.has_registers]
    uses = []
    for crate in sorted({struct.group.crate for struct in without}):
        uses += use(crate, [struct.name for struct in without if struct.group.crate == crate])
    sources.part(f"{CRATE}/src/tasks.rt", "uses", uses)
    sources.part(f"{CRATE}/src/visit.rt", "arms", visit_arms(table, structs))
    sources.part(f"{CRATE}/src/visit.rt", "groups", visit_functions(table))
    sources.whole(f"{CRATE}/specs/Inst.antt", words(structs))
    sources.whole(f"{CRATE}/specs/Group.antt", groups(table))
    for crate in table.crates:
        of_crate = [struct for struct in structs if struct.group.crate == crate]
        sources.whole(f"{CRATE}/src/from_{crate}.rt", from_file(crate, of_crate))
    write_proofs(structs, sources)
