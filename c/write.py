#!/usr/bin/env python3
"""Writes huqmeris.h, huqmeris_names.h, the Rust declarations and abi.txt from the sources, or with --check tells which of them differ.

The structs and constants are those of `x64_plain` and of `huqmeris_c`, the calls those of `huqmeris_c`, and the numbers of
lines those of the two tables in `table`, in their order. An item that is a jump at a condition has the condition's name and number in
the list of the code buffer: where `huqmeris_c` names or numbers it otherwise, it's refused. A call is refused that has no clause, that requires something of its
caller, or in whose signature stands what isn't an integer, a slice or a reference of integers, or a struct of these without
padding and without a ghost field. abi.txt has all names, numbers and offsets: where one that stands in it changes or goes,
`HQ_VERSION` has to change too.

The status is 0 where all is as it has to be, 1 where --check found a difference, and 2 where something is refused: then
nothing is written.
"""

import re
import sys
from pathlib import Path
from typing import NamedTuple

HERE = Path(__file__).resolve().parent
ROOT = HERE.parent
sys.path.insert(0, str(ROOT / "table"))

import parts  # noqa: E402
from core_lines import CORE, core_of  # noqa: E402
from judging import table_of  # noqa: E402

STRUCT_FILES = [f"crates/x64_plain/src/{name}.rt" for name in ("place", "inst", "reading", "told")]
STRUCT_FILES += [f"crates/huqmeris_c/src/{name}.rt" for name in ("progress", "item", "line_use")]
STATUS_FILES = ["crates/x64_plain/src/status.rt", "crates/huqmeris_c/src/status.rt"]
CONSTANT_FILES = ["crates/huqmeris_c/src/version.rt", *STATUS_FILES, *STRUCT_FILES, "crates/huqmeris_c/src/make.rt"]
EXPORT_FOLDER = "crates/huqmeris_c/src"
CONDITIONS = "crates/x64_code_buffer/src/jump.rt"
FIRST_CONDITION = 4  # the kind of item of the first one
INTEGERS = {
    "u8": ("uint8_t", 1), "i8": ("int8_t", 1), "u16": ("uint16_t", 2), "i16": ("int16_t", 2), "u32": ("uint32_t", 4),
    "i32": ("int32_t", 4), "u64": ("uint64_t", 8), "i64": ("int64_t", 8), "usize": ("size_t", 8),
}  # fmt: skip
DOC = r"((?:[ \t]*///[^\n]*\n)*)"
STRUCT = re.compile(DOC + r"#\[repr\(C\)\]\n(?:#\[[^\n]*\]\n)*pub struct (\w+) \{\n(.*?)\n\}", re.DOTALL)
ALLOCATOR = "Global"  # passes nothing
FIELD = re.compile(DOC + r"[ \t]*(pub |ghost |)(\w+): ([^,\n]+),\n")
CONSTANT = re.compile(DOC + r"pub const (HQ_\w+): (\w+) = ([^;]+);")
CONDITION_LIST = re.compile(r"pub enum Condition \{\n(.*?)\n\}", re.DOTALL)
CONDITION = re.compile(r"^    (\w+),$", re.MULTILINE)
CONDITION_ITEM = re.compile(r"HQ_ITEM_J(?!MP$)\w+")
EXPORT = re.compile(DOC + r'#\[unsafe\(no_mangle\)\]\npub (unsafe )?extern "C" fn (\w+)\(([^)]*)\)([^{\n]*)\n(.*?)^\{\n', re.DOTALL | re.MULTILINE)
MARK = re.compile(r"no_mangle|export_name")


class Refused(Exception):
    pass


class Constant(NamedTuple):
    doc: list
    name: str
    kind: str
    value: int


class Field(NamedTuple):
    doc: list
    name: str
    kind: str
    count: int
    offset: int
    c: str
    rust: str

    @property
    def suffix(self):
        return f"[{self.count}]" if self.count else ""


class Struct(NamedTuple):
    doc: list
    name: str
    fields: list
    size: int
    align: int

    @property
    def c_name(self):
        return re.sub(r"(?<!^)(?=[A-Z])", "_", self.name).lower()


class Parameter(NamedTuple):
    name: str
    c: str
    rust: str


class Export(NamedTuple):
    doc: list
    name: str
    parameters: list
    result: str


def text_of(path):
    return (ROOT / path).read_text(encoding="utf-8")


def paragraphs(doc, every=True):
    """The lines of a documentation, with the names of links alone; or those of its first paragraph."""
    lines = [line.strip().removeprefix("///").strip() for line in doc.splitlines()]
    lines = [re.sub(r"\[(`\w+`)\]\([^)]*\)", r"\1", line) for line in lines]
    return lines if every or "" not in lines else lines[: lines.index("")]


def number_of(name, text):
    """A constant's number."""
    if text == "i64::MIN":
        return -(2**63)
    if not re.fullmatch(r"-?\d+", text):
        raise Refused(f"{name}: {text} is no number")
    return int(text)


def condition_items():
    """The kinds of items that are jumps at a condition, by name: in the order of the conditions, which is that of their codes."""
    listed = CONDITION_LIST.search(text_of(CONDITIONS))
    names = CONDITION.findall(listed[1]) if listed else []
    if len(names) != 16:
        raise Refused(f"{CONDITIONS}: there are {len(names)} conditions, and a jump's opcode has four bits for them")
    return {f"HQ_ITEM_J{name.upper()}": FIRST_CONDITION + code for code, name in enumerate(names)}


def judge_conditions(found):
    """Each condition has its item, and there is no other."""
    wanted, items = condition_items(), {constant.name: constant.value for constant in found if CONDITION_ITEM.fullmatch(constant.name)}
    for name in sorted(wanted.keys() | items.keys()):
        if wanted.get(name) != items.get(name):
            raise Refused(f"{name} is {items.get(name)} here, and by the list of conditions {wanted.get(name)}")


def constants():
    found = []
    for path in CONSTANT_FILES:
        for doc, name, kind, value in CONSTANT.findall(text_of(path)):
            if kind not in INTEGERS:
                raise Refused(f"{name}: {kind} is no integer")
            found.append(Constant(paragraphs(doc), name, kind, number_of(name, value)))
    judge_conditions(found)
    return found


def sizes_of(kind, known, of):
    """How many bytes an integer or a struct has, and how it's aligned."""
    if kind in INTEGERS:
        return INTEGERS[kind][1], INTEGERS[kind][1]
    if kind in known:
        return known[kind].size, known[kind].align
    raise Refused(f"{of}: {kind} is no integer")


def struct_of(doc, name, body, known=None):
    """A struct whose fields, integers or structs before it, follow each other without a byte between them."""
    known = known or {}
    fields, at, align, rest = [], 0, 1, FIELD.sub("", body + "\n").strip()
    if rest:
        raise Refused(f"{name}: {rest} is no field of integers")
    for field_doc, word, field, kind in FIELD.findall(body + "\n"):
        if word != "pub ":
            raise Refused(f"{name}.{field}: a field that isn't public, or a ghost field, would be a duty of the caller's")
        array = re.fullmatch(r"\[(\w+); (\d+)\]", kind)
        kind, count = (array[1], int(array[2])) if array else (kind, 0)
        size, aligned = sizes_of(kind, known, f"{name}.{field}")
        if at % aligned:
            raise Refused(f"{name}.{field}: there is padding before it")
        fields.append(Field(paragraphs(field_doc), field, kind, count, at, *base_of(kind, known, f"{name}.{field}")))
        at, align = at + size * (count or 1), max(align, aligned)
    if at % align:
        raise Refused(f"{name}: there is padding at its end")
    return Struct(paragraphs(doc, every=False), name, fields, at, align)


def structs():
    found = {}
    for path in STRUCT_FILES:
        for doc, name, body in STRUCT.findall(text_of(path)):
            found[name] = struct_of(doc, name, body, found)
    return found


def base_of(kind, known, of):
    """The names of an integer or of a struct in C and in Rust."""
    if kind in INTEGERS:
        return INTEGERS[kind][0], kind
    if kind in known:
        return known[kind].c_name, known[kind].c_name
    raise Refused(f"{of}: {kind} doesn't cross")


def parameters_of(name, text, known):
    found = []
    for part in filter(None, (part.strip() for part in text.split(","))):
        field, kind = (word.strip() for word in part.split(":", 1))
        if kind == ALLOCATOR:
            continue
        behind = re.fullmatch(r"&(mut )?(?:\[(\w+)(?:; (\d+))?\]|(\w+))", kind)
        if not behind:
            if kind not in INTEGERS:
                raise Refused(f"{name}: {part} doesn't cross")
            found.append(Parameter(field, f"{INTEGERS[kind][0]} {field}", f"{field}: {kind}"))
            continue
        written, element, count, single = behind.groups()
        c, rust = base_of(element or single, known, name)
        star = "*HQ_RESTRICT " if written else "*"
        rust = f"[{rust}; {count}]" if count else rust
        shown = f"{'' if written else 'const '}{c} {field}[{count}]" if count else f"{'' if written else 'const '}{c} {star}{field}"
        found.append(Parameter(field, shown, f"{field}: *{'mut' if written else 'const'} {rust}"))
        if element and not count:
            found.append(Parameter(f"{field}_len", f"size_t {field}_len", f"{field}_len: usize"))
    return found


def exports(known):
    found = []
    for path in sorted((ROOT / EXPORT_FOLDER).glob("**/*.rt")):
        text = path.read_text(encoding="utf-8")
        here = EXPORT.findall(text)
        if len(here) != len(MARK.findall(text)):
            raise Refused(f"{path.name}: something is exported otherwise than by #[unsafe(no_mangle)] pub extern \"C\" fn")
        for doc, is_unsafe, name, parameters, result, clauses in here:
            kind = re.fullmatch(r" -> (\w+)", result)
            if is_unsafe or re.search(r"^\s*(requires|ghost)\b", clauses, re.MULTILINE):
                raise Refused(f"{name}: it requires something of its caller")
            if not re.search(r"^\s*ensures\b", clauses, re.MULTILINE):
                raise Refused(f"{name}: it has no clause")
            if not kind or kind[1] not in INTEGERS:
                raise Refused(f"{name}: what it answers is no integer")
            found.append(Export(paragraphs(doc), name, parameters_of(name, parameters, known), kind[1]))
    return sorted(found, key=lambda export: export.name)


def line_names():
    """The names of all lines, by number."""
    table, sentences = table_of(ROOT, parts.text_of(ROOT, parts.TABLE))
    core, more = core_of(parts.text_of(ROOT, CORE), table.rows) if not sentences else (None, [])
    if sentences or more:
        raise Refused("the tables aren't as they have to be: table/write.py says why")
    return [line.name for line in (*table.rows, *core.lines)]


def comment(lines, indent=""):
    if not lines:
        return []
    body = "\n".join(f"{indent} * {line}".rstrip() for line in lines)
    if len(lines) == 1:
        return [f"{indent}/* {lines[0]} */"]
    return [f"{indent}/*", body, f"{indent} */"]


def c_number(constant):
    if constant.value == -(2**63):
        return "INT64_MIN"
    return f"{constant.value}u" if constant.kind.startswith("u") else f"{constant.value}"


HELPERS = """\
/* The number and the detail of a status. */
static inline int32_t hq_code(int32_t status) { return status & 0xff; }
static inline int32_t hq_detail(int32_t status) { return status >> 8; }

/* Places: nothing, a register, memory at a base, at a base and an index times 1 << scale, at a label, at a constant. */
static inline hq_place hq_nothing(void)
{
    hq_place p = {0, 0, 0, 0, 0, 0, 0, 0, 0, 0};
    return p;
}

static inline hq_place hq_reg(uint8_t reg)
{
    hq_place p = hq_nothing();
    p.place = HQ_PLACE_REGISTER;
    p.base = reg;
    return p;
}

static inline hq_place hq_mem(uint8_t base, int32_t disp)
{
    hq_place p = hq_nothing();
    p.place = HQ_PLACE_BASE;
    p.base = base;
    p.disp = disp;
    return p;
}

static inline hq_place hq_index(uint8_t base, uint8_t index, uint8_t scale, int32_t disp)
{
    hq_place p = hq_mem(base, disp);
    p.place = HQ_PLACE_INDEX;
    p.index = index;
    p.scale = scale;
    return p;
}

static inline hq_place hq_label(uint32_t label)
{
    hq_place p = hq_nothing();
    p.place = HQ_PLACE_LABEL;
    p.target = label;
    return p;
}

static inline hq_place hq_constant(uint32_t constant)
{
    hq_place p = hq_nothing();
    p.place = HQ_PLACE_CONSTANT;
    p.target = constant;
    return p;
}

/* Items: an instruction; the place of a label or a constant, a jump to a label, or padding, by kind and number; bytes. */
static inline hq_item hq_item_of(const hq_inst *inst)
{
    hq_item i = {HQ_ITEM_INST, 0, {0, 0, 0, 0, 0, 0, 0, 0, 0, 0, 0, 0, 0, 0}};
    i.inst = *inst;
    return i;
}

static inline hq_item hq_item_at(uint32_t kind, uint32_t number)
{
    hq_item i = {0, 0, {0, 0, 0, 0, 0, 0, 0, 0, 0, 0, 0, 0, 0, 0}};
    i.kind = kind;
    i.number = number;
    return i;
}

/* An item of up to 24 bytes. Of more none is read, and `hq_assemble` refuses the item. */
static inline hq_item hq_item_bytes(const void *bytes, uint32_t count)
{
    hq_item i = hq_item_at(HQ_ITEM_BYTES, count);
    if (count > 0 && count <= sizeof i.inst)
        memcpy(&i.inst, bytes, count);
    return i;
}
"""


def header(found, known, calls, names):
    out = ["/* Written by c/write.py. What each call owes and is owed: docs/C.md. */", "#ifndef HUQMERIS_H", "#define HUQMERIS_H", "", "#include <stddef.h>", "#include <stdint.h>", "#include <string.h>", ""]
    out += ["#ifdef __cplusplus", "#define HQ_RESTRICT __restrict", 'extern "C" {', "#else", "#define HQ_RESTRICT restrict", "#endif", ""]
    for constant in found:
        out += comment(constant.doc) + [f"#define {constant.name} {c_number(constant)}"]
    out += ["", "/* The lines. */", "enum {"]
    out += [f"    HQ_LINE_{name.upper()} = {number}," for number, name in enumerate(names)]
    out += [f"    HQ_LINE_COUNT = {len(names)}", "};", ""]
    for struct in known.values():
        out += comment(struct.doc) + [f"typedef struct {struct.c_name} {{"]
        for field in struct.fields:
            out += comment(field.doc, "    ") + [f"    {field.c} {field.name}{field.suffix};"]
        out += [f"}} {struct.c_name};", "#if !defined(__cplusplus) && __STDC_VERSION__ >= 201112L"]
        out += [f'_Static_assert(sizeof({struct.c_name}) == {struct.size}, "{struct.c_name}");']
        out += [f'_Static_assert(offsetof({struct.c_name}, {field.name}) == {field.offset}, "{struct.c_name}.{field.name}");' for field in struct.fields]
        out += ["#endif", ""]
    for call in calls:
        listed = ", ".join(parameter.c for parameter in call.parameters) or "void"
        out += comment(call.doc) + [f"{INTEGERS[call.result][0]} {call.name}({listed});", ""]
    out += [HELPERS, "#ifdef __cplusplus", "}", "#endif", "#endif", ""]
    return "\n".join(out)


def name_table(found, known, calls, names):
    """The lines by their names, for programs that print or read them: it takes no part in what is proved."""
    out = ["/* Written by c/write.py: the names of the lines, by number. */", "#ifndef HUQMERIS_NAMES_H", "#define HUQMERIS_NAMES_H", '#include "huqmeris.h"', ""]
    out += ["static const char *const hq_line_names[HQ_LINE_COUNT] = {", *(f'    "{name}",' for name in names), "};", ""]
    out += ["/* The name of a line, NULL where there is none of this number. */"]
    out += ["static inline const char *hq_line_name(uint16_t line) { return line < HQ_LINE_COUNT ? hq_line_names[line] : NULL; }", "", "#endif", ""]
    return "\n".join(out)


def rust(found, known, calls, names):
    out = ["//! Written by c/write.py: what the static library declares.", "#![allow(non_camel_case_types)]", ""]
    for constant in found:
        value = "i64::MIN" if constant.value == -(2**63) else constant.value
        out += [f"/// {line}".rstrip() for line in constant.doc] + [f"pub const {constant.name}: {constant.kind} = {value};"]
    out += ["", "/// How many lines there are.", f"pub const HQ_LINE_COUNT: u16 = {len(names)};"]
    out += [f"pub const HQ_LINE_{name.upper()}: u16 = {number};" for number, name in enumerate(names)]
    for struct in known.values():
        out += ["", *(f"/// {line}".rstrip() for line in struct.doc), "#[repr(C)]", "#[derive(Clone, Copy, Debug, Default, PartialEq, Eq, Hash)]", f"pub struct {struct.c_name} {{"]
        for field in struct.fields:
            kind = f"[{field.rust}; {field.count}]" if field.count else field.rust
            out += [f"    /// {line}".rstrip() for line in field.doc] + [f"    pub {field.name}: {kind},"]
        out += ["}", "", f"const _: () = assert!(size_of::<{struct.c_name}>() == {struct.size} && align_of::<{struct.c_name}>() == {struct.align});"]
    out += ["", '#[link(name = "huqmeris", kind = "static")]', 'unsafe extern "C" {']
    for call in calls:
        word = "unsafe" if call.parameters else "safe"
        listed = ", ".join(parameter.rust for parameter in call.parameters)
        out += [f"    /// {line}".rstrip() for line in call.doc] + [f"    pub {word} fn {call.name}({listed}) -> {call.result};"]
    return "\n".join([*out, "}", ""])


def abi(found, known, calls, names):
    """A line for each name that a program may have been built with."""
    out = [f"{constant.name} = {constant.value}" for constant in found]
    out += [f"HQ_LINE_{name.upper()} = {number}" for number, name in enumerate(names)]
    for struct in known.values():
        out += [f"{struct.c_name}: {struct.size} bytes"]
        out += [f"{struct.c_name}.{field.name}: {field.rust}{field.suffix} at {field.offset}" for field in struct.fields]
    out += [f"{call.name}({', '.join(parameter.rust for parameter in call.parameters)}) -> {call.result}" for call in calls]
    return "\n".join([*out, ""])


def judge_abi(before, after):
    """What stood there still stands, or the version is another."""
    old, new = before.splitlines(), after.splitlines()
    version = [line for line in old if line.startswith("HQ_VERSION = ")]
    gone = [line for line in old if line not in set(new)]
    if gone and set(version) <= set(new):
        raise Refused(f"abi.txt: `{gone[0]}` changed or went, and HQ_VERSION is as before")


def wanted():
    found, known = constants(), structs()
    calls, names = exports(known), line_names()
    files = {"huqmeris.h": header, "huqmeris_names.h": name_table, "rust/src/sys.rs": rust, "abi.txt": abi}
    return {name: make(found, known, calls, names) for name, make in files.items()}, len(calls)


def main(words):
    if words not in ([], ["--check"]):
        print("write.py [--check]", file=sys.stderr)
        return 2
    try:
        files, count = wanted()
        stands = {name: (HERE / name).read_text(encoding="utf-8") if (HERE / name).exists() else "" for name in files}
        judge_abi(stands["abi.txt"], files["abi.txt"])
    except Refused as refused:
        print(f"write.py: {refused}", file=sys.stderr)
        return 2
    changed = [name for name in files if stands[name] != files[name]]
    for name in changed:
        if words:
            print(f"c/{name}: this isn't what the sources give", file=sys.stderr)
        else:
            (HERE / name).parent.mkdir(parents=True, exist_ok=True)
            (HERE / name).write_text(files[name], encoding="utf-8")
    print(f"write.py: {count} calls, {len(files)} files, {len(changed)} {'differ' if words else 'changed'}")
    return 1 if words and changed else 0


if __name__ == "__main__":
    sys.exit(main(sys.argv[1:]))
