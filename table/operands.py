"""An operand as its struct shows it: the type of its field, its word in a clause, its code and its visit."""

COUNT_WORDS = ("Zero", "One", "Two", "Three", "Four", "Five", "Six", "Seven", "Eight", "Nine")
SIZE_WORDS = {8: "Byte", 16: "Word", 32: "Doubleword", 64: "Quadword"}
EXTENSION_WORDS = {"sx16": "SignExtendWord", "sx32": "SignExtendLong", "sx64": "SignExtendQuad"}
VISIT_WORDS = {"Read": "read", "ReadWrite": "read_write", "Write": "write"}


def immediate_type(operand):
    return ("Simm" if operand.is_signed else "Imm") + str(operand.size)


def immediate_kind(operand, instruction):
    """The kind of `Immediate`, and the extension that it names."""
    if operand.reading == "distance":
        return f"Distance{operand.size}", None
    if operand.reading == "predicate":
        return ("VexPredicate" if instruction.code.vex else "Predicate"), None
    return immediate_type(operand), EXTENSION_WORDS.get(operand.reading)


def type_of(operand):
    """The type of a field."""
    if operand.kind == "immediate":
        return immediate_type(operand)
    access = operand.access
    return {
        "memory": "Amode<R::ReadGpr>",
        "general": f"Gpr<R::{access}Gpr>",
        "general or memory": f"GprMem<R::{access}Gpr, R::ReadGpr>",
        "vector": f"Xmm<R::{access}Xmm>",
        "vector or memory": f"XmmMem<R::{access}Xmm, R::ReadGpr>",
        "fixed": f"Fixed<R::{access}Gpr, {operand.number}>",
    }[operand.kind]


class Shown:
    """An operand, or two that are one: its kind, its words in a clause, with @ before its fields, its code, its visit.

    `of` is what its kind has in a signature, `size` and `extension` are what the words name of these, and `printed` whether
    a fixed register has a size.
    """

    def __init__(self, kind, words, code, visit=None, of=None, size=None, extension=None, printed=None):
        self.kind = kind
        self.words = words
        self.code = f"Operand::{kind}({code})"
        self.visit = visit
        self.of = of or (f"Size::{size}" if size else None)
        self.size = size
        self.extension = extension
        self.printed = printed

    def ghost(self, within):
        """Its word in a clause, in which its field is the name behind `within`."""
        return f"({self.kind} {self.words.replace('@', within)})"


def shown_immediate(operand, instruction):
    kind, extension = immediate_kind(operand, instruction)
    behind = f" {extension}" if extension else ""
    code = f"self.{operand.name}.value()" + (f", Extension::{extension}" if extension else "")
    words = f"(immediate.{kind} @{operand.name}{behind})"
    of = f"ImmediateKind::{kind}" + (f"(Extension::{extension})" if extension else "")
    return Shown("Imm", words, f"Immediate::{kind}({code})", of=of, extension=extension)


def shown_fixed(operand):
    name, number = operand.name, operand.number
    size = None if operand.implicit else SIZE_WORDS[operand.size]
    words = f"@{name}.0 {number} " + (f"(Some {size})" if size else "None")
    of = f"{number}, " + (f"Some(Size::{size})" if size else "None")
    visit = f"visitor.fixed_{VISIT_WORDS[operand.access]}_gpr(&mut self.{name}.0, {number})"
    return Shown(f"Fixed{operand.access}Gpr", words, f"self.{name}.0, {of}", visit, of, size,
                 printed="Some" if size else "None")


def shown_pair(high, low):
    """Two general registers that are written, which a visit meets once where they are the same."""
    size = SIZE_WORDS[high.size]
    return Shown("WriteTwoGprs", f"@{high.name} @{low.name} {size}",
                 f"*self.{high.name}.as_ref(), *self.{low.name}.as_ref(), Size::{size}",
                 f"visit_two_gprs(&mut self.{high.name}, &mut self.{low.name}, visitor)", size=size)


def shown_register(operand):
    name, access = operand.name, operand.access
    if operand.kind == "vector":
        visit = f"visitor.{VISIT_WORDS[access]}_xmm(self.{name}.as_mut())"
        return Shown(f"{access}Xmm", f"@{name}", f"*self.{name}.as_ref()", visit)
    size = SIZE_WORDS[operand.size]
    return Shown(f"{access}Gpr", f"@{name} {size}", f"*self.{name}.as_ref(), Size::{size}",
                 f"visitor.{VISIT_WORDS[access]}_gpr(self.{name}.as_mut())", size=size)


def shown_place(operand):
    name, access = operand.name, operand.access
    if operand.kind == "memory":
        return Shown("ReadAmode", f"@{name}", f"self.{name}", f"visitor.read_amode(&mut self.{name})")
    if operand.kind == "vector or memory":
        return Shown("ReadXmmMem", f"@{name}", f"self.{name}", f"visitor.read_xmm_mem(&mut self.{name})")
    size = SIZE_WORDS[operand.size]
    return Shown(f"{access}GprMem", f"@{name} {size}", f"self.{name}, Size::{size}",
                 f"visitor.{VISIT_WORDS[access]}_gpr_mem(&mut self.{name})", size=size)


def shown(operand, instruction):
    if operand.kind == "immediate":
        return shown_immediate(operand, instruction)
    if operand.kind == "fixed":
        return shown_fixed(operand)
    return shown_register(operand) if operand.is_register else shown_place(operand)


def is_written_register(operand):
    return operand.kind == "general" and operand.access == "Write"


def shown_operands(instruction):
    """The operands in the order of visits, each as its struct shows it."""
    found, operands = [], instruction.in_order_of_visits
    while operands:
        first = operands.pop(0)
        if operands and is_written_register(first) and is_written_register(operands[0]):
            found.append(shown_pair(first, operands.pop(0)))
        else:
            found.append(shown(first, instruction))
    return found


def view(instruction, within):
    """The list of operands, as a clause says it."""
    operands = shown_operands(instruction)
    return " ".join([COUNT_WORDS[len(operands)], *(operand.ghost(within) for operand in operands)])
