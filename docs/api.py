#!/usr/bin/env python3
"""Writes docs/API.md, the reference of public items, from the sources; with --check tells whether it is as they have it.

Each item of the two facades, of the code buffer, of the core and of the layouts has its path, its documentation, its signature and
the clauses of its contract, by name. An item that both facades have stands there once. An item that requires something says in its documentation what a build that wasn't proved
does where that doesn't hold. Those of docs/silent.txt don't say it yet: no item comes to them, and one that says it is taken
away, so they only get fewer.

Run at the top: python3 docs/api.py [--check]. The status is 0 where the page is as the sources have it, or was written, and
each such item says so; and else 1, with a sentence for each.
"""
import re
import sys
import textwrap
from pathlib import Path

ROOT = Path(__file__).resolve().parent.parent
PAGE = ROOT / "docs/API.md"
FACADE = "cranelift_assembler_x64"
CORE_FACADE = "huqmeris"
BUFFER = "x64_code_buffer"

# The items in the order in which a reader looks for them.
SECTIONS = (
    ("An instruction", "Instruction InstructionText EncodeError Fault RoomNeeded rename"),
    ("Lists of instructions", "encode_all encode_all_whole encode_each encode_each_checked encode_each_whole all_encodable "
     "Refused Stopped"),
    ("Every kind of instruction", "inst::Inst Row Branch signature OperandKind ImmediateKind"),
    ("Registers", "Registers Numbers AsReg Gpr NonRspGpr Xmm Fixed Size register_name gpr::enc xmm::enc"),
    ("Addresses", "Amode BaseAddress IndexAddress AmodeOffset AmodeOffsetPlusKnownOffset Scale GprMem XmmMem "
     "emit_modrm_sib_disp rex::Disp Dialect"),
    ("Immediates", "Imm8 Imm16 Imm32 Imm64 Simm8 Simm16 Simm32 Extension OutOfRange"),
    ("Sinks", "CodeSink Recorder FixedSink Notice TrapCode DeferredTarget Label Constant KnownOffset SinkError"),
    ("The code buffer", "CodeBuffer Jump Condition BindError FinishError patched_field"),
    ("Reading", "reader::read_inst reader::Reading reader::Place reader::RegView"),
    ("Features", "Feature AvailableFeatures Features"),
    ("Instructions of your own", "HasOperands RowAndOperands Task FromOperands Made Operand Operands Immediate ImmOperand Nop "
     "RegisterVisitor of_one of_two of_three of_four of_five operands_of"),
    ("Prefixes by themselves", "rex::RexPrefix vex::VexPrefix evex::EvexPrefix"),
    ("Laws", "laws"),
)

# The crates beside the facade of the port whose public items all stand on the page, each with its heading. What the facade of
# the core has stands there by its path in it.
CRATES = (
    ("The core", "x64_core"),
    ("Lines of the core", "x64_lines"),
    ("Places of the core", "x64_place"),
    ("The core from bytes", "x64_reader"),
    ("Texts of the core", "x64_text"),
    ("What is encoded by a line", "x64_encode"),
    ("Lists of what is encoded by a line", "cax64_sequence"),
    ("Lists in their least layout", "x64_assemble"),
    ("The least layout", "x64_layout"),
)
# Modules of constants alone, of which there is a table.
CONSTANTS = "ops::"

# Items with a condition that don't say yet what a build that wasn't proved does where it doesn't hold, a name a line.
SILENT = ROOT / "docs/silent.txt"


def read(path):
    return (ROOT / path).read_text(encoding="utf-8")


def uses(crate):
    """The path of each item of a crate's root: the crate and name that it stands for."""
    found, module = {}, ""
    text = re.sub(r"\{\s*([^{}]*?)\s*\}(?=;)", lambda match: "{" + " ".join(match[1].split()) + "}", read(f"crates/{crate}/src/lib.rt"))
    for line in text.splitlines():
        opened = re.match(r"pub mod (\w+) \{", line)
        if opened:
            module = f"{opened[1]}::"
        elif line == "}":
            module = ""
        used = re.match(r" *pub use ((?:\w+::)*)(\{.*\}|\w+);", line)
        if used:
            for name in re.findall(r"\w+", used[2]):
                source = used[1].split("::")[0]
                is_crate = (ROOT / "crates" / source).is_dir() and not (ROOT / f"crates/{crate}/src/{source}.rt").exists()
                found[module + name] = (source if is_crate else crate), name
    return found


class Item:
    """A function, a type or a trait: its documentation, its head, and what stands in it."""

    def __init__(self, doc, head, clauses):
        self.doc, self.head, self.clauses, self.within = doc, head, clauses, []


def balanced(text):
    return all(text.count(opened) <= text.count(closed) for opened, closed in ("{}", "()"))


def clause_of(lines, at):
    """A clause that begins in a line, and the line behind it."""
    text = lines[at].strip()
    while not balanced(text):
        at += 1
        text += " " + lines[at].strip()
    match = re.match(r"(requires|ensures) (?:(\w+) )?\{ ?(.*?) ?\};?$", text)
    return (match[1], match[2], match[3]), at + 1


def function(lines, at, doc):
    """The function whose head begins in a line, and the line behind its head and clauses."""
    head = lines[at].strip()
    while not re.search(r"[{;]$", head) and not re.match(r"\s*(requires|ensures|where|\{|\}|$)", lines[at + 1]):
        at += 1
        head += " " + lines[at].strip()
    is_bare = head.endswith(("{", ";"))
    at += 1
    clauses = []
    while not is_bare and at < len(lines) and re.match(r"\s*(requires|ensures|where) ", lines[at]):
        if lines[at].strip().startswith("where"):
            head += " " + lines[at].strip()
            at += 1
            continue
        clause, at = clause_of(lines, at)
        clauses.append(clause)
    head = re.sub(r"\( ", "(", re.sub(r",? \)", ")", head.rstrip("{; ")))
    return Item(doc, head, clauses), at


def block(lines, at):
    """The lines of a block that begins in a line, without those of blocks in it that are bodies, and the line behind it."""
    start, indent = at, len(lines[at]) - len(lines[at].lstrip())
    while at < len(lines) and not re.match(rf"^ {{{indent}}}\}}", lines[at]):
        at += 1
    return lines[start:at + 1], at + 1


class Crate:
    """The public items of a crate's sources, by name."""

    def __init__(self, name):
        self.types, self.functions, self.methods, self.modules = {}, {}, {}, {}
        # the names of each module, in its order
        self.names = {}
        source = ROOT / "crates" / name / "src"
        for path in sorted(source.rglob("*.rt")):
            module = "::".join(path.relative_to(source).with_suffix("").parts)
            self.read(module, path.read_text(encoding="utf-8").splitlines())

    def read(self, module, lines):
        doc, at = [], 0
        while at < len(lines):
            line = lines[at]
            if line.startswith("///"):
                doc.append(line[3:].strip())
            elif re.match(r"pub (fn|unsafe fn) ", line):
                item, at = function(lines, at, doc)
                name = re.match(r"pub (?:unsafe )?fn (\w+)", item.head)[1]
                self.functions[name] = item
                self.names.setdefault(module, []).append(name)
                doc = []
                continue
            elif match := re.match(r"pub (?:struct|enum|trait) (\w+)", line):
                self.names.setdefault(module, []).append(match[1])
                at = self.read_type(lines, at, doc)
                doc = []
                continue
            elif re.match(r"pub (type|const) (\w+)", line):
                item = Item(doc, line.rstrip(";"), [])
                name = re.match(r"pub \w+ (\w+)", line)[1]
                self.types[name] = item
                self.names.setdefault(module, []).append(name)
                self.modules.setdefault(module, []).append(item)
                doc = []
            elif re.match(r"impl\b", line) and " for " not in line.split("{")[0]:
                at = self.read_impl(lines, at)
                doc = []
                continue
            elif not line.startswith("#["):
                doc = []
            at += 1

    def read_type(self, lines, at, doc):
        kind, name = re.match(r"pub (struct|enum|trait) (\w+)", lines[at]).groups()
        if lines[at].endswith(";"):
            self.types[name] = Item(doc, lines[at].rstrip(";"), [])
            return at + 1
        text, behind = block(lines, at)
        item = Item(doc, text[0].rstrip(" {"), [])
        if kind == "trait":
            item.within = list(self.functions_of(text[1:], "fn "))
        else:
            item.fields = [line for line in text[1:-1] if not re.match(r"\s*(ghost|#\[)", line)]
        self.types[name] = item
        return behind

    def read_impl(self, lines, at):
        text, behind = block(lines, at)
        head = text[0]
        name = re.search(r"^impl(?:<.*?>)? (\w+)", re.sub(r"<[^<>]*(?:<[^<>]*>[^<>]*)*> ", "<> ", head, count=1))
        if name:
            self.methods.setdefault(name[1], []).extend(self.functions_of(text[1:], "pub fn "))
        return behind

    def functions_of(self, lines, begin):
        doc, at = [], 0
        while at < len(lines):
            line = lines[at].strip()
            if line.startswith("///"):
                doc.append(line[3:].strip())
            elif lines[at].startswith("    " + begin) or lines[at].startswith("    pub const "):
                if "const" in lines[at].split("(")[0] and "fn" not in lines[at]:
                    yield Item(doc, line.split(" = ")[0].rstrip(";"), [])
                    at += 1
                else:
                    item, at = function(lines, at, doc)
                    yield item
                doc = []
                continue
            elif not line.startswith("#["):
                doc = []
            at += 1


def shown_clauses(item, indent):
    for kind, name, text in item.clauses:
        yield f"{indent}- {kind} {f'**{name}** ' if name else ''}`{text}`"


class Conditions:
    """The items of the page that require something: whether their documentation says what follows where it doesn't hold."""

    def __init__(self):
        self.said = {}
        self.silent = [line for line in SILENT.read_text(encoding="utf-8").splitlines() if line and line[0] != "#"]

    def see(self, path, item):
        if any(kind == "requires" for kind, _, _ in item.clauses):
            self.said[path] = "that wasn't proved" in " ".join(item.doc)

    def new(self):
        """Items that don't say it, and aren't among those of before."""
        for path, is_said in self.said.items():
            if not is_said and path not in self.silent:
                yield f"{path} doesn't say what a build that wasn't proved does where its condition doesn't hold"

    def gone(self):
        """Those of before that say it now, or have no condition any more."""
        return [path for path in self.silent if self.said.get(path, True)]

    def take_away(self):
        """Leaves those out that are gone."""
        gone = self.gone()
        kept = [line for line in SILENT.read_text(encoding="utf-8").splitlines() if line not in gone]
        SILENT.write_text("\n".join(kept) + "\n", encoding="utf-8")
        self.silent = [path for path in self.silent if path not in gone]


CONDITIONS = Conditions()


def shown_function(path, item, level):
    CONDITIONS.see(path, item)
    yield f"{level} `{item.head}`"
    yield ""
    if item.doc:
        yield from item.doc
        yield ""
    clauses = list(shown_clauses(item, ""))
    yield from [*clauses, ""] if clauses else []


def shown_type(path, item, methods):
    yield f"### `{path}`"
    yield ""
    if item.doc:
        yield from item.doc
        yield ""
    yield "```"
    fields = [line for line in getattr(item, "fields", []) if line.strip()]
    shown_ = [line for line in fields if re.match(r"    (///|pub \w+:|[A-Z]|[})]|     )", line)]
    yield from [item.head + " {", *shown_, "}"] if any("///" not in line for line in shown_) else [item.head]
    yield "```"
    yield ""
    for function_ in [*item.within, *methods]:
        name = re.search(r"\bfn (\w+)", function_.head)
        yield from shown_function(f"{path}::{name[1]}" if name else path, function_, "####")


def shown(crates, path, source, name):
    crate = crates.setdefault(source, Crate(source))
    if not any(name in items for items in (crate.types, crate.functions)) and path not in crate.modules:
        source = uses(source).get(name, (source, name))[0]
        crate = crates.setdefault(source, Crate(source))
    if name in crate.types:
        yield from shown_type(path, crate.types[name], crate.methods.get(name, []))
    elif name in crate.functions:
        item = crate.functions[name]
        yield f"### `{path}`"
        yield ""
        yield from shown_function(path, item, "####")
    elif path in crate.modules:
        yield f"### `{path}`"
        yield ""
        for item in crate.modules[path]:
            yield f"- `{item.head}`" + (f": {' '.join(item.doc)}" if item.doc else "")
        yield ""
    else:
        raise SystemExit(f"api: {path} has no definition in {source}")


def modules_of(crate, file="lib"):
    """The public modules of a crate, each below the one that it stands in."""
    within = "" if file == "lib" else f"{file}/"
    for name in re.findall(r"(?m)^pub mod (\w+);", read(f"crates/{crate}/src/{file}.rt")):
        yield f"{within}{name}".replace("/", "::")
        if (ROOT / f"crates/{crate}/src/{within}{name}").is_dir():
            yield from modules_of(crate, f"{within}{name}")


def constants(crates, crate, modules):
    """A table of the constants of some modules, a row for each type that they have in a module."""
    rows, count = [], 0
    for module in modules:
        about = re.search(r"(?m)^//! (.*)$", read(f"crates/{crate}/src/{module.replace('::', '/')}.rt"))[1]
        first, found = f"`{module.split('::')[-1]}`: {about}", {}
        for name in crates[crate].names.get(module, []):
            if match := name in crates[crate].types and re.match(r"pub const \w+: ([^=]*?) =", crates[crate].types[name].head):
                found.setdefault(match[1], []).append(f"`{name}`")
        for of_type, names in found.items():
            rows.append(f"| {first} | `{of_type}` | {', '.join(names)} |")
            first, count = "", count + len(names)
    yield f"### `{crate}::{CONSTANTS.rstrip(':')}`"
    yield ""
    yield f"The {count} constants, one for each line of the core. A constant's type says which operands its line takes."
    yield ""
    yield "| Module | Type | Constants |"
    yield "|---|---|---|"
    yield from rows
    yield ""
    lists = [f"`{module.split('::')[-1]}::{name}`" for module in modules for name in crates[crate].names.get(module, [])
             if name in crates[crate].functions]
    if lists:
        yield f"Functions that list those of one group: {', '.join(lists)}."
        yield ""


def below_root(crates, crate, facade, above=()):
    """The items of a crate's public modules that its root doesn't have, and that don't stand above."""
    crates.setdefault(crate, Crate(crate))
    root, modules = uses(crate), list(modules_of(crate))
    for module in modules:
        if not f"{module}::".startswith(CONSTANTS):
            for name in crates[crate].names.get(module, []):
                if (crate, name) not in root.values() and (crate, name) not in above:
                    yield from shown(crates, path_of(crate, f"{module}::{name}", (crate, name), facade), crate, name)
    if tables := [module for module in modules if module.startswith(CONSTANTS)]:
        yield from constants(crates, crate, tables)


def path_of(crate, name, item, facade):
    """The path by which a user names an item of a crate: of the facade of the core, if that has it."""
    return next((f"{CORE_FACADE}::{path}" for path, of in facade.items() if of == item), f"{crate}::{name}")


def whole(crates, crate, facade, above):
    """All public items of a crate that don't stand above: those of its root, and then those of its public modules."""
    for name, item in uses(crate).items():
        if item not in above:
            yield from shown(crates, path_of(crate, name, item, facade), *item)
    yield from below_root(crates, crate, facade, above)


def in_both(facade, others):
    """What the facade of the core has that stands on the page by another path."""
    names = [f"`{path}`" for path, item in facade.items() if item in others]
    yield "## What both facades have"
    yield ""
    yield from textwrap.wrap(f"`{CORE_FACADE}` has these too, which stand above: {', '.join(names)}.", 119, break_long_words=False,
                             break_on_hyphens=False)
    yield ""


def instructions(crates, public):
    """The structs, each with what it is made of."""
    yield "## The instructions"
    yield ""
    yield "Each has a `new` of its fields, and what [`Instruction`](#instruction) and `InstructionText` have. They stand in"
    yield f"`{FACADE}::inst`."
    yield ""
    yield "| Struct | Made of | What it is |"
    yield "|---|---|---|"
    for path, (source, name) in sorted(public.items()):
        if path.startswith("inst::") and name != "Inst":
            crate = crates.setdefault(source, Crate(source))
            new = next((item for item in crate.methods.get(name, []) if "fn new(" in item.head), None)
            given = re.search(r"new\((.*)\) -> ", new.head)[1] if new else ""
            yield f"| `{name}` | `{given}` | {' '.join(crate.types[name].doc)} |" if given else \
                f"| `{name}` | | {' '.join(crate.types[name].doc)} |"
    yield ""


def page():
    crates, public, buffer, core = {}, uses(FACADE), uses(BUFFER), uses(CORE_FACADE)
    left = {path for path in public if not path.startswith(("inst::", "laws::"))} | set(buffer)
    above = {*public.values(), *buffer.values()}
    yield "# Public items"
    yield ""
    yield "<!-- Written by docs/api.py from the sources. -->"
    yield ""
    yield from textwrap.wrap(
        f"Items of the port's facade, `{FACADE}`; in *The code buffer* those of `{BUFFER}`; and behind these those of the core's facade, "
        f"`{CORE_FACADE}`, among all public items of " + ", ".join(f"`{crate}`" for _, crate in CRATES[:-1])
        + f" and `{CRATES[-1][1]}`. Not here are the crates below, of which the facades give what they have, and the calls from C, which "
        "stand in `c/huqmeris.h` and [C.md](C.md).", 119,
        break_long_words=False, break_on_hyphens=False)
    yield ""
    yield "Behind a signature stand the clauses of the contract, by name: what a call requires, and what it ensures."
    yield "[PROVING.md](PROVING.md) says where the words of clauses stand."
    yield ""
    for title, names in SECTIONS:
        yield f"## {title}"
        yield ""
        for path in names.split():
            paths = sorted(other for other in public if other.startswith("laws::")) if path == "laws" else [path]
            for each in paths:
                source, name = (buffer if each in buffer else public)[each]
                yield from shown(crates, each, source, name)
                left.discard(each)
                left -= {other for other in left if public.get(other) == (source, name)}
                above.add((source, name))
        if title == "The code buffer":
            yield from below_root(crates, BUFFER, {})
            above |= {(BUFFER, name) for names in crates[BUFFER].names.values() for name in names}
    yield from in_both(core, above)
    for title, crate in CRATES:
        yield f"## {title}"
        yield ""
        yield from whole(crates, crate, core, above)
        above |= {*uses(crate).values(), *((crate, name) for names in crates[crate].names.values() for name in names)}
    left |= {path for path, item in core.items() if item not in above and item not in (("x64_core", "makers"), ("x64_core", "ops"))}
    yield from instructions(crates, public)
    if left:
        raise SystemExit(f"api: no section has {', '.join(sorted(left))}")


def main(words):
    if words not in ([], ["--check"]):
        print(__doc__, file=sys.stderr)
        return 2
    text = re.sub(r"\n{3,}", "\n\n", "\n".join(page()).rstrip("\n") + "\n")
    stands = PAGE.read_text(encoding="utf-8") if PAGE.exists() else ""
    if not words:
        CONDITIONS.take_away()
        PAGE.write_text(text, encoding="utf-8")
    told = [*CONDITIONS.new(), *(f"{path} is to be taken from docs/silent.txt" for path in CONDITIONS.gone())]
    count = len(told)
    told.append(f"api: of {len(CONDITIONS.said)} items with a condition {len(CONDITIONS.silent)} don't say yet what follows without it")
    is_same = not words or stands == text
    told.append(f"api: docs/API.md is {'as the sources have it' if is_same else 'not as the sources have it'}")
    print("\n".join(told))
    return 0 if is_same and not count else 1


if __name__ == "__main__":
    sys.exit(main(sys.argv[1:]))
