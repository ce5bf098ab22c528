"""Makes a program of the crate of the exports, which calls each of them once: `source(folder)` writes its files.

The calls, their types and the structs are those that `write.py` reads, so an export that is added is called too. The values are zeros:
the program is compiled, and not run. In the copy the constant behind `hq_is_proved` is 0.
"""

import re

import write

CRATE = "huqmeris_c"
SOURCES = write.ROOT / "crates" / CRATE / "src"
TEST_MODULE = re.compile(r"^#\[cfg\(test\)\]\nmod (\w+);\n", re.MULTILINE)
PROVED = ("is_proved.rt", "const PROVED: u32 = 1;", "const PROVED: u32 = 0;")


def paths_of_structs():
    """Where the program finds each struct."""
    found = {}
    for path in write.STRUCT_FILES:
        _, crate, _, file = path.split("/")
        module = f"crate::{file.removesuffix('.rt')}" if crate == CRATE else crate
        found.update((name, f"{module}::{name}") for _, name, _ in write.STRUCT.findall(write.text_of(path)))
    return found


class Values:
    """Zeros of each type that crosses."""

    def __init__(self):
        self.structs, self.paths = write.structs(), paths_of_structs()

    def of(self, kind):
        if kind in write.INTEGERS:
            return f"0_{kind}"
        if kind not in self.structs:
            raise write.Refused(f"{kind} is no integer and no struct that crosses")
        by_c_name = {struct.c_name: name for name, struct in self.structs.items()}
        fields = []
        for field in self.structs[kind].fields:
            one = self.of(by_c_name.get(field.rust, field.rust))
            fields.append(f"{field.name}: " + (f"[{one}; {field.count}]" if field.count else one))
        return f"{self.paths[kind]} {{ {', '.join(fields)} }}"

    def argument(self, name, kind):
        """The lines that a parameter needs before the call, and what is handed over."""
        if kind == write.ALLOCATOR:
            return [], "alloc"
        behind = re.fullmatch(r"&(mut )?(?:\[(\w+)(?:; (\d+))?\]|(\w+))", kind)
        if not behind:
            return [], self.of(kind)
        written, element, count, single = behind.groups()
        value = f"[{self.of(element)}; {count or 1}]" if element else self.of(single)
        return [f"    let {written or ''}{name} = {value};"], f"&{written or ''}{name}"


def calls():
    """Each export: the module that has it, its name, and its parameters' names and types."""
    for path in sorted(SOURCES.glob("**/*.rt")):
        module = "::".join(path.relative_to(SOURCES).with_suffix("").parts)
        for _, _, name, parameters, _, _ in write.EXPORT.findall(path.read_text(encoding="utf-8")):
            parts = filter(None, (part.strip() for part in parameters.split(",")))
            yield module, name, [tuple(word.strip() for word in part.split(":", 1)) for part in parts]


def main_function():
    """A `main` that calls each export in a function of its own."""
    values, functions, lines = Values(), [], []
    for module, name, parameters in calls():
        given = [values.argument(*parameter) for parameter in parameters]
        before = [line for lines, _ in given for line in lines]
        call = f"    let _ = crate::{module}::{name}({', '.join(word for _, word in given)});"
        functions.append("\n".join([f"fn call_{name}(alloc: std::alloc::Global) {{", *before, call, "}\n"]))
        lines.append(f"    call_{name}(rt.alloc());")
    head = "fn main(rt: HostRuntime) -> std::io::Result<()> {"
    return "\n".join([*functions, head, *lines, "    Ok(())", "}", ""])


def source(folder):
    """Writes the program's files into a folder: those of the crate without its tests, and `main`."""
    root = (SOURCES / "lib.rt").read_text(encoding="utf-8")
    tests = {f"{name}.rt" for name in TEST_MODULE.findall(root)}
    file, one, zero = PROVED
    for path in sorted(SOURCES.glob("**/*.rt")):
        text = path.read_text(encoding="utf-8")
        if path.name == file:
            if text.count(one) != 1:
                raise write.Refused(f"{file} has no line `{one}`, so the archive couldn't say that it isn't proved")
            text = text.replace(one, zero)
        if path.name != "lib.rt" and path.name not in tests:
            to = folder / path.relative_to(SOURCES)
            to.parent.mkdir(parents=True, exist_ok=True)
            to.write_text(text, encoding="utf-8")
    (folder / "main.rt").write_text(f"{TEST_MODULE.sub('', root)}\n{main_function()}", encoding="utf-8")
