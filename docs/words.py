#!/usr/bin/env python3
"""Writes into docs/TRUSTED.md in which words each promise is said; with --check tells what differs there.

A promise is a public function and clauses of its contract. What these cite is followed through the `use` lines of the files
of words (`specs/*.antt`), from definition to definition; the standard library's words end it. The page gets the files in
which the definitions stand, with their lines, the types that they name, and the constants of `src` that they cite; and the
lines of what stands by hand between a caller in C or Rust and the exports.

Run at the top: python3 docs/words.py [--check]. The status is 0 where the page is as the sources have it, or was written; 1
where --check finds a difference, where a definition stands behind those that `Lib.antt` says have to be believed, or where
README's table promises something of a call that isn't followed; and 2 where a promise, a clause or a definition isn't found, or
the page lacks a mark. Then a sentence says which.
"""
import re
import sys
from functools import cache
from pathlib import Path
from typing import NamedTuple

import api

ROOT = Path(__file__).resolve().parent.parent
PAGE = ROOT / "docs/TRUSTED.md"

# Each promise: what it is called, where its function stands, and which of its clauses say it; all of them where none is named.
# What a function requires is part of what it promises. The first ones have a column of their own.
PROMISES = (
    ("`encode`", "cax64_encoder/src/instruction.rt", "encode", "adds"),
    ("`encode` of `Core`", "x64_core/src/encode.rt", "encode", "adds"),
    ("`hq_encode`", "huqmeris_c/src/encode.rt", "hq_encode", ""),
    ("`hq_encode_all`", "huqmeris_c/src/encode_all.rt", "hq_encode_all", ""),
    ("`hq_assemble`", "huqmeris_c/src/assemble.rt", "hq_assemble", ""),
    ("`encode_all`", "cax64_encode_all/src/lib.rt", "encode_all", "adds"),
    ("`emit_modrm_sib_disp`", "cax64_address/src/tail.rt", "emit_modrm_sib_disp", "adds address"),
    ("`whole_instruction_is_shortest`", "cax64_shortest/src/laws.rt", "whole_instruction_is_shortest", ""),
    ("`is_encodable`", "cax64_encoder/src/instruction.rt", "is_encodable", ""),
    ("`first_fault`", "cax64_encoder/src/instruction.rt", "first_fault", "fault none"),
    ("`encode_checked`", "cax64_encoder/src/instruction.rt", "encode_checked", "fault unchanged adds"),
    ("`read_inst`", "x64_reader/src/rows.rt", "read_inst", "is"),
    ("`encode_entry`", "cax64_encoder/src/encoder.rt", "encode_entry", "adds"),
    ("`rename`", "cax64_renaming/src/lib.rt", "rename", "renamed"),
    ("`finish`", "x64_code_buffer/src/buffer.rt", "finish", "fields others finished laid"),
    ("`push_jump`", "x64_code_buffer/src/jumps.rt", "push_jump", "near far laid_near laid_far"),
    ("`assemble` of `Layout`", "x64_assemble/src/assemble.rt", "assemble", "assembled"),
    ("`least_layout`", "x64_layout/src/least.rt", "least_layout", "least"),
    ("`read_core`", "x64_reader/src/reader.rt", "read_core", "is none"),
    ("`to_string` of `CoreText`", "x64_text/src/text.rt", "to_string", ""),
    ("`operands` of `Op`", "x64_lines/src/operands.rt", "operands", ""),
    ("`flags` of `Op`", "x64_lines/src/flags.rt", "flags", ""),
    ("`extension` of `Op`", "x64_lines/src/extension.rt", "extension", ""),
    ("`hq_decode`", "huqmeris_c/src/decode.rt", "hq_decode", ""),
    ("`hq_format`", "huqmeris_c/src/text.rt", "hq_format", ""),
    ("`hq_line_operand`", "huqmeris_c/src/line_use.rt", "hq_line_operand", ""),
    ("`hq_line_flags`", "huqmeris_c/src/line_use.rt", "hq_line_flags", ""),
)
COLUMNS = 5

# The ghost members of traits that clauses of other crates name, and where the trait says what they are.
GHOSTS = {"meant": "cax64_encoder/src/instruction.rt", "line_meant": "x64_encode/src/encode.rt"}

NAME = r"[^\s(){}\[\],;:.]+"


class Word(NamedTuple):
    """A definition: the crate and module of its words, and its name."""

    crate: str
    module: str
    name: str


class Closure(NamedTuple):
    """What some clauses cite: files of words, their definitions, types, and constants of sources."""

    files: set
    definitions: set
    types: set
    constants: set


class Missing(Exception):
    """What isn't where it's looked for."""


def uses_in(text):
    """What each name stands for that `use` lines give: a module, and an item of it or None."""
    names = {}
    for path, items, alias in re.findall(r"(?m)^ *(?:pub |ghost )*use ([\w.]+?)(?:\.\{(.*)\})?(?: as (\w+))?;?$", text):
        if not items:
            names[alias or path.split(".")[-1]] = path, None
            continue
        for item in filter(None, map(str.strip, items.split(","))):
            name, _, other = item.partition(" as ")
            names[other or name] = path, name
    return names


class Words:
    """A file of words: the text of each definition, and what its names stand for."""

    def __init__(self, text):
        text = re.sub(r"(?m)(^|\s)--.*$", r"\1", text)
        self.names, self.texts, self.within = uses_in(text), {}, {}
        name = None
        for line in text.splitlines():
            if re.match(r"(pub )?use |\}?$", line):
                continue
            if not line[0].isspace():
                rest = re.sub(r"^((abbrev|pub|record|data|unfoldable|unfolding|mutual) )*", "", line)
                name = re.match(NAME, rest)[0]
            self.texts.setdefault(name, []).append(line)
        for name, lines in self.texts.items():
            if re.match(r"(pub )?data ", lines[0]):
                self.within.update({match[1]: name for line in lines[1:] if (match := re.match(rf"\s+({NAME}) :", line))})

    def definition(self, name):
        return name if name in self.texts else self.within.get(name)

    def resolved(self, parts):
        """What a name with dots is, as a module's path and an item; nothing for a name that is bound where it stands."""
        if parts[0] in self.names:
            path, item = self.names[parts[0]]
            return path, item if item is not None else parts[1] if len(parts) > 1 else None
        return None


@cache
def words_of(crate, module):
    path = ROOT / "crates" / crate / "specs" / (module.replace(".", "/") + ".antt")
    return Words(path.read_text(encoding="utf-8")) if path.is_file() else None


def cited(text, words):
    """The definitions, types and constants that a text names, by the names of a file."""
    for name in re.findall(rf"{NAME}(?:\.{NAME})*", text):
        found = words.resolved(name.split("."))
        match = found and re.match(r"Rattle\.(\w+)\.specs\.(.*)$", found[0])
        # a module's name alone is that of a variable
        if match and match[1] != "std" and found[1]:
            yield Word(match[1], match[2], found[1])


def closure(roots):
    """All that follows from some definitions."""
    found, seen, left = Closure(set(), set(), set(), set()), set(), list(roots)
    while left:
        word = left.pop()
        if word in seen:
            continue
        seen.add(word)
        if word.module.startswith("declared."):
            path = word.module.split(".")[1:]
            if "TheConstants" in path:
                found.constants.add((word.crate, ".".join(path[:path.index("TheConstants")]), word.name))
            else:
                found.types.add((word.crate, [part for part in path if part != "TheVariants"][-1]))
            continue
        words = words_of(word.crate, word.module)
        name = words and words.definition(word.name)
        if not name:
            raise Missing(f"{word.module} of {word.crate} has no definition of {word.name}")
        found.files.add((word.crate, word.module))
        found.definitions.add((word.crate, word.module, name))
        for line in words.texts[name]:
            left += cited(line, words)
            left += (Word(word.crate, word.module, other) for other in re.findall(NAME, line) if words.definition(other))
    return found


def block(text, start):
    """What stands between a brace, behind which it begins, and the one that closes it."""
    depth, end = 1, start
    while depth:
        depth += {"{": 1, "}": -1}.get(text[end], 0)
        end += 1
    return text[start:end - 1]


class Source:
    """A source file: its lines, and its names as of a file of words without definitions."""

    def __init__(self, file):
        self.file = file
        self.text = (ROOT / "crates" / file).read_text(encoding="utf-8")
        self.names = uses_in(self.text)

    resolved = Words.resolved

    def clauses(self, name, wanted):
        """The texts of the clauses of a function that are wanted, and of what it requires."""
        lines_ = self.text.splitlines()
        heads = [at for at, line in enumerate(lines_) if re.match(rf'\s*(pub )?(extern "C" )?fn {name}\b', line)]
        items = [item for item in (api.function(lines_, at, [])[0] for at in heads) if item.clauses]
        if len(items) != 1:
            raise Missing(f"{self.file} has {len(items)} functions {name} with clauses, and not one")
        named = {clause for kind, clause, _ in items[0].clauses if kind == "ensures"}
        if lost := set(wanted.split()) - named:
            raise Missing(f"{name} of {self.file} has no clause {', '.join(sorted(lost))}")
        return [text for kind, clause, text in items[0].clauses if kind == "requires" or not wanted or clause in wanted.split()]

    def ghosts(self, texts):
        """What the ghost members are that some texts name."""
        found = re.finditer(r"(?m)^ *ghost (\w+)(?::| =) \{", self.text)
        return [block(self.text, match.end()) for match in found if any(re.search(rf"\b{match[1]}\b", text) for text in texts)]


def roots(file, name, wanted):
    """What the clauses of a function cite, and the ghost members that they name."""
    source = Source(file)
    texts = source.clauses(name, wanted)
    cites = [(source, text) for text in texts + source.ghosts(texts)]
    left = {ghost: trait for ghost, trait in GHOSTS.items() if trait != file}
    while found := [ghost for ghost in left if any(re.search(rf"\.{ghost}\b", text) for _, text in cites)]:
        for ghost in found:
            other = Source(left.pop(ghost))
            cites += [(other, text) for text in other.ghosts([ghost])]
    return [word for place, text in cites for word in cited(text, place)]


@cache
def promised(label):
    """What a promise is said in."""
    return closure(roots(*next(promise for promise in PROMISES if promise[0] == label)[1:]))


def path_of(crate, module):
    return f"crates/{crate}/specs/{module.replace('.', '/')}.antt"


def lines(path):
    return (ROOT / path).read_text(encoding="utf-8").count("\n")


def files_of(label):
    return len(promised(label).files)


def lines_of(label):
    return sum(lines(path_of(*file)) for file in promised(label).files)


def needed_of(label):
    """The lines of the definitions alone, without empty ones and comments."""
    return sum(bool(line.strip()) for crate, module, name in promised(label).definitions
               for line in words_of(crate, module).texts[name])


@cache
def entries(crate, module, name):
    """How many entries a constant has that is a table, and None for one that is a single value."""
    text = (ROOT / "crates" / crate / "src" / (module.replace(".", "/") + ".rt")).read_text(encoding="utf-8")
    match = re.search(rf"(?:static|const) {name}\b[^=]*= (\[\n(?:.*\n)*?\];)?", text)
    if not match:
        raise Missing(f"{module}.rt of {crate} has no constant {name}")
    return match[1].count("\n") - 1 if match[1] else None


@cache
def believed(crate):
    """The files of a crate that its Lib.antt lists first: those whose words the clauses of public functions cite."""
    text = (ROOT / f"crates/{crate}/specs/Lib.antt").read_text(encoding="utf-8")
    first = re.split(r"^-- (?!What|The words).*$", text, flags=re.M)
    return re.findall(r"^pub mod (\w+)$", first[0], re.M)


# The tables of the page.

def table(head, rows):
    yield "| " + " | ".join(head) + " |"
    yield "|" + "---|" * len(head)
    for row in rows:
        yield "| " + " | ".join(row) + " |"


def in_order(found):
    """Files in the order of crates.txt, and within a crate in that of Lib.antt."""
    order = [line.split()[0].rstrip(":") for line in (ROOT / "crates.txt").read_text(encoding="utf-8").splitlines()
             if line and line[0] != "#"]
    return sorted(found, key=lambda file: (order.index(file[0]), believed(file[0]).index(file[1].split(".")[0])))


def matrix():
    labels = [promise[0] for promise in PROMISES[:COLUMNS]]
    closures = [promised(label) for label in labels]
    rows, last = [], None
    for file in in_order(set().union(*(found.files for found in closures))):
        crate = f"`{file[0]}`" if file[0] != last else ""
        last = file[0]
        rows.append([crate, f"`{file[1]}`", f"{lines(path_of(*file)):,}",
                     *("x" if file in found.files else "" for found in closures)])
    rows.append(["files", "", "", *(str(len(found.files)) for found in closures)])
    rows.append(["lines", "", "", *(f"{lines_of(label):,}" for label in labels)])
    return table(["Crate", "File", "Lines", *labels], rows)


def named_types():
    found = {}
    for crate, name in set().union(*(promised(promise[0]).types for promise in PROMISES[:COLUMNS])):
        found.setdefault(crate, []).append(f"`{name}`")
    return table(["Crate", "Types"], ([f"`{crate}`", ", ".join(sorted(names))] for crate, names in sorted(found.items())))


def tables_of(found):
    """The tables among the constants, each with the number of its entries, and how many are single numbers."""
    sized = sorted((name, entries(crate, module, name)) for crate, module, name in found.constants)
    tables, single = [f"`{name}` {count}" for name, count in sized if count], sum(count is None for _, count in sized)
    return ", ".join(tables + ([f"{single} single"] if single else [])) or "-"


def sums():
    for label, _, _, wanted in PROMISES:
        found = promised(label)
        clauses = ", ".join(f"`{clause}`" for clause in wanted.split()) or "all"
        yield [label, clauses, str(files_of(label)), f"{lines_of(label):,}", f"{needed_of(label):,}", str(len(found.types)),
               tables_of(found)]


def inline_functions():
    """The lines of the functions within the header, and how many these are."""
    text = (ROOT / "c/huqmeris.h").read_text(encoding="utf-8")
    found = re.findall(r"(?m)^static inline (?:.*\}\n|.*\n\{\n(?:.*\n)*?\}\n)", text)
    return sum(part.count("\n") for part in found), len(found)


def beside():
    header, count = inline_functions()
    unsafe = len(re.findall(r"\bunsafe \{", (ROOT / "c/rust/src/lib.rs").read_text(encoding="utf-8")))
    rows = (
        ("c/huqmeris.h", "structs, numbers and prototypes", "`c/write.py`, of the sources"),
        ("c/heap.c", "the three functions of memory, over `malloc`, `realloc` and `free`", "by hand, tested"),
        ("c/rust/src/sys.rs", "the same structs, numbers and prototypes for Rust", "`c/write.py`, of the sources"),
        ("c/rust/src/lib.rs", f"the crate over these, with {unsafe} `unsafe` blocks", "by hand, tested"),
    )
    shown = [[f"`{path}`", f"{lines(path):,}", what, by] for path, what, by in rows]
    shown.insert(1, ["within it", str(header), f"{count} functions (`static inline`), which make places and items",
                     "by hand in `c/write.py`, tested"])
    return table(["File", "Lines", "What it is", "By whom it's written"], shown)


PARTS = {
    "sums": lambda: table(["Promise", "Clauses", "Files", "Lines", "Needed", "Types", "Constants"], sums()),
    "files": matrix,
    "types": named_types,
    "beside": beside,
}


def mark(part):
    return f"<!-- docs/words.py: {part} -->"


def with_lines(text):
    """The page with the present number of lines beside each file of the table of words."""
    def row(match):
        crate = match[1]
        return re.sub(r"`(\w+)` \d+", lambda file: f"`{file[1]}` {lines(path_of(crate, file[1]))}"
                      if (ROOT / path_of(crate, file[1])).is_file() else file[0], match[0])
    return re.sub(r"(?m)^\| `(\w+)`: .*$", row, text)


def written(text):
    for part, made in PARTS.items():
        form = re.compile(rf"{re.escape(mark(part))}\n.*?<!-- end -->", re.S)
        if len(form.findall(text)) != 1:
            raise Missing(f"docs/TRUSTED.md has no part {mark(part)} .. <!-- end -->, or several")
        text = form.sub(lambda _, part=part, made=made: "\n".join([mark(part), *made(), "<!-- end -->"]), text)
    return with_lines(text)


def strangers():
    """Files in which a promise has words, though Lib.antt lists them among the steps of proofs."""
    for label, *_ in PROMISES:
        for crate, module in promised(label).files:
            if module.split(".")[0] not in believed(crate):
                yield f"{label} is said in words of {path_of(crate, module)}, which Lib.antt has behind those to be believed"


def unknown():
    """Calls of README's table of promises that aren't among these, and clauses that they don't have."""
    rows = re.findall(r"(?m)^\| [^|]* \| (`[^|]*) \|[^|]*\|$", (ROOT / "README.md").read_text(encoding="utf-8"))
    for part in (part for row in rows for part in row.split(";")):
        calls, _, clauses = part.partition(":")
        for call in map(str.strip, calls.split(",")):
            label = re.sub(r" of `\w+_\w+`$", "", call)
            found = [promise for promise in PROMISES if promise[0] == label]
            if found:
                _, file, name, _ = found[0]
                Source(file).clauses(name, " ".join(re.findall(r"`(\w+)`", clauses)))
            else:
                yield f"README.md promises something of {call}, which docs/words.py doesn't follow"


def main(given):
    if given not in ([], ["--check"]):
        print(__doc__, file=sys.stderr)
        return 2
    try:
        stands = PAGE.read_text(encoding="utf-8")
        told = sorted({*strangers(), *unknown()})
        text = written(stands) if not told else stands
    except Missing as lost:
        print(f"words: {lost}", file=sys.stderr)
        return 2
    if told:
        print("\n".join([*told, f"words: {len(told)} differ"]))
        return 1
    if given:
        print(f"words: docs/TRUSTED.md is {'as the sources have it' if stands == text else 'not as the sources have it'}")
        return 0 if stands == text else 1
    PAGE.write_text(text, encoding="utf-8")
    print(f"words: {len(PROMISES)} promises")
    return 0


if __name__ == "__main__":
    sys.exit(main(sys.argv[1:]))
