"""The public paths of the instructions, and the instructions from their names."""

from enumeration import uses_one_by_one
from formatting import WIDTH, use
from operands import immediate_type

# The calls that read a value of a kind from text.
VALUES = {
    "memory": "amode",
    "general": "gpr",
    "general or memory": "gpr_mem",
    "vector": "xmm",
    "vector or memory": "xmm_mem",
    "fixed": "fixed",
}


def value(operand):
    read = VALUES.get(operand.kind) or immediate_type(operand).lower()
    return f'v.{read}("{operand.name}")'


def named_arm(struct):
    """The arm of a name: the instruction made of its values."""
    name = struct.name
    # A struct without registers may be a late variant, which only its `From` makes.
    if struct.nop:
        return [f"        {struct.nop} => Some(Inst::from({name}::new())),"]
    made = f"Inst::{name}" if struct.has_registers else "Inst::from"
    values = [value(operand) for operand in struct.operands]
    begin = f'        "{name}" => Some({made}({name}::new('
    line = f"{begin}{', '.join(values)}))),"
    if len(line) <= WIDTH:
        return [line]
    return [begin, *(f"            {value}," for value in values), "        ))),"]


def write(table, sources):
    public = uses_one_by_one(table, [("cax64_inst", "Inst")], "    ", "pub use")
    sources.part("crates/cranelift_assembler_x64/src/lib.rt", "instructions", public)
    files = {}
    for function, groups in table.names.items():
        file, name = function.split("::")
        structs = [struct for group in groups for struct in table.of_group(group)]
        files.setdefault(file, []).extend(structs)
        lines = [line for struct in structs for line in named_arm(struct)]
        sources.part(f"crates/named_instructions/src/names/{file}.rt", name, lines)
    for file, structs in files.items():
        uses = use("cranelift_assembler_x64::inst", [struct.name for struct in structs])
        sources.part(f"crates/named_instructions/src/names/{file}.rt", "uses", uses)
