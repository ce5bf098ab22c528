"""Makes of what the compiler of machine code gets for an unproved run what it gets for a proved build: `converted(text, crate, exports)`.

The text is LLVM's. An unproved run checks at each step what a proof would have shown, and fills memory before its first use, so that a
mistake ends it. A proved build does neither, and takes for granted what is proved. So here too the checks are left out, and what a
check kept from happening is undefined. The functions get the attributes that a proved build has: those of the target, and the inline
attributes of the sources, which an unproved run leaves out.
"""

import re
from collections import defaultdict
from typing import NamedTuple

CHECK = 'call void @"rattle-llvm-checks::'
FILLED = re.compile(r"\s+call void @llvm\.memset\.p0\.i64\(ptr %r\d+, i8 -86,")
DEFINED = re.compile(r'^define internal (.*?)@"([^"]+)"(\(.*\)) #(\d+) \{$')
GENERIC = re.compile(r"<.*$")
IMPL = re.compile(r"(?:unsafe )?impl\b(?:<[^{]*?>)? ?(?:.*\bfor )?&?(?:mut )?([\w:]+)")
FUNCTION = re.compile(r'\s*(?:pub(?:\([a-z:]+\))? )?(?:const )?(?:unsafe )?(?:extern "C" )?fn (\w+)')
ATTRIBUTE = re.compile(r"\s*#\[(inline\(always\)|inline\(never\)|inline|cold)\]")
PASSED_OVER = re.compile(r"\s*(?:#\[|//|$)")
AS_LLVM = {"inline(always)": "alwaysinline", "inline(never)": "noinline", "inline": "inlinehint", "cold": "cold"}


class Unexpected(Exception):
    """What the text has to have, and lacks."""


class Written(NamedTuple):
    """A function of the sources: its module, its type if it's a method, and its attributes."""

    module: tuple
    owner: str
    attributes: tuple


def module_of(path):
    """The module that a file below src/ is."""
    parts = path.with_suffix("").parts
    return parts[:-1] if parts[-1] in ("lib", "main", "mod") else parts


def functions_of(text, module):
    """The functions of a file, by their names."""
    owner, attributes = "", []
    for line in text.splitlines():
        block, attribute, function = IMPL.match(line), ATTRIBUTE.match(line), FUNCTION.match(line)
        if block or line.startswith("}"):
            owner = block[1].split("::")[-1] if block else ""
        if attribute:
            attributes.append(attribute[1])
        elif function:
            yield function[1], Written(module, owner, tuple(AS_LLVM[word] for word in attributes))
        if not attribute and not PASSED_OVER.match(line):
            attributes = []


class Attributes:
    """The inline attributes of the sources of some crates."""

    def __init__(self, sources):
        self.found = defaultdict(list)
        for crate, folder in sources:
            for path in sorted(folder.rglob("*.rt")):
                for name, written in functions_of(path.read_text(encoding="utf-8"), module_of(path.relative_to(folder))):
                    self.found[crate, name].append(written)

    def of(self, name):
        """Those of a function by its name in the text: of the one in its module, of its type, or all of that name in the crate."""
        crate, *path, function = GENERIC.sub("", name).rstrip(":").split("::")
        every = self.found.get((crate, function), [])
        exact = [it for it in every if [*it.module, *filter(None, [it.owner])] == path]
        of_type = [it for it in every if path and it.owner == path[-1]]
        for group in (exact, of_type, every):
            wanted = {it.attributes for it in group}
            if len(wanted) == 1:
                return " ".join(wanted.pop())
        return ""


def defined(line, crate, exports, attributes):
    """The first line of a function: an export's with its name in C, and each with its attributes."""
    parts = DEFINED.match(line)
    if not parts:
        return line.replace("define i32 @main(", "define internal i32 @main(")
    front, name, parameters, number = parts.groups()
    short = name.split("::")[-1]
    is_export = name.startswith(f"{crate}::") and short in exports
    shown = attributes.of(name)
    return f'define {"" if is_export else "internal "}{front}@"{name}"{parameters} {shown + " " if shown else ""}#{number} {{'


def renamed(text, crate, exports):
    """The exports by their names in C, where they are defined and where they are called."""
    for export in exports:
        names = set(re.findall(rf'^define (?!internal ).*?(@"{crate}::(?:\w+::)*{export}")\(', text, re.MULTILINE))
        if len(names) != 1:
            raise Unexpected(f"{export} is defined {len(names)} times in what the compiler gets")
        text = text.replace(names.pop(), f"@{export}")
    return text


def of_target(line):
    """The attributes of a group of functions, as a proved build has them."""
    for word in ("sanitize_address ", '"frame-pointer"="all" '):
        line = line.replace(word, "")
    line = line.replace('"target-cpu"="x86-64"', '"target-cpu"="x86-64-v2"')
    return re.sub(r"\{\s*\}$", "{ nounwind }", line)


def converted(text, crate, exports, attributes):
    """The text without checks, with the exports and the attributes of a proved build."""
    lines = []
    for line in text.splitlines():
        if CHECK in line or FILLED.match(line) or line.strip() == "call void @llvm.trap()":
            continue
        if line.startswith("define"):
            line = defined(line, crate, exports, attributes)
        elif line.startswith("attributes #"):
            line = of_target(line)
        lines.append(line)
    made = renamed("\n".join([*lines, ""]), crate, exports)
    for word in ("call void @llvm.trap", CHECK, "sanitize_address #", '"target-cpu"="x86-64"'):
        if word in made:
            raise Unexpected(f"{word} is left in what the compiler gets")
    return made
