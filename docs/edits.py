#!/usr/bin/env python3
"""Tells whether each must-fail edit is refused by the clause that it names.

An edit (crates/*/must-fail/*.edit) begins with a line `# clause: FUNCTION CLAUSE`: the function whose contract has to refuse
it, by as much of its path as tells it from others, and the name of its `ensures` (`ensures` where it has none, or the first
word of the prover's goal, such as `overflow_add`). Where the first error stands elsewhere, a line `# seen: FUNCTION CLAUSE: REASON`
or `# seen: FILE LEMMA: REASON`, of a file of proofs/, says so.

usage, at the top:
  python3 docs/edits.py              each edit has its line, the clause is there, and docs/edits.txt has the edit so
  python3 docs/edits.py LOG..        and what `rt ci` or `rt must-fail` printed points at that clause, as docs/edits.txt says; what
                                     the page hasn't seen yet is told where it differs, and is no fault
  python3 docs/edits.py --write LOG..  writes docs/edits.txt of these logs; edits that no log has keep their lines

The status is 0 where all of it holds, 1 where it doesn't, and 2 where the call is wrong or a file can't be read.
"""
import re
import sys
from pathlib import Path
from typing import NamedTuple

PAGE = "docs/edits.txt"
HEAD = """# Which clause each must-fail edit names, and where the prover's first error stands: the function and its goal. A goal ends
# with the clause's name where it is proved clause by clause. Where a stored proof answers the goal, the error is that it
# doesn't any more. Written by docs/edits.py of what rt printed.
"""
TRIED = re.compile(r"(?:rt: )?must-fail (\w+)/([\w.-]+)\.edit: (.*)")
PLACE = re.compile(r"(?:note: )?(?:\./)?((?:src|proofs)/\S+?):(\d+):\d+: (.*)")
FN = re.compile(r'( *)(?:pub(?:\([\w ]+\))? |unsafe |const |final |ghost |extern "C" )*fn (\w+)')
BLOCK = re.compile(r"( *)(?:pub(?:\([\w ]+\))? |unsafe )*(impl|trait|mod)\b(.*)")
CLAUSE = re.compile(r" *(?:requires|ensures)\*? (?:(\w+) )?\{")
UNSEEN, STORED = "not seen yet", ", as its stored proof has it"
# The goals of a loop, which stand for the clauses of its function.
OF_LOOP = re.compile(r"(?:invariant_of|.*-(?:init|preserved|smaller)\b)")
# What an edit can name beside an `ensures`.
OTHER_GOAL = re.compile(r"[\w:]+-requires|overflow_|nonzero_|bounds|slice_bounds|offset_bounds")


class Place(NamedTuple):
    """Where an error stands: a function (or a lemma's file) and a goal of it, which is open, or answered in a file of proofs/."""

    function: str
    goal: str
    is_stored: bool = False

    def text(self):
        return f"{self.function} {self.goal}{STORED if self.is_stored else ''}"


class Function(NamedTuple):
    """A function of a crate: its path, its file and lines, the names of its `ensures`, and a method's type and trait."""

    path: str
    file: str
    first: int
    last: int
    clauses: tuple
    of: str
    trait: str


class Edit(NamedTuple):
    """What an edit says of itself. `seen` is where the first error stands if that isn't the clause."""

    name: str
    clause: Place | None
    seen: Place | None


# The functions of a crate.

def names_of(kind, rest):
    """The name of what a block is of (the type of an `impl`, a trait, or a module), and its trait's name; a module has none."""
    head = re.sub(r"\s*(?:\{|where\b).*", "", rest)
    while re.search(r"<[^<>]*>", head):
        head = re.sub(r"<[^<>]*>", "", head)
    if kind == "impl":
        *trait, of = [re.findall(r"\w+", it)[-1] for it in head.split(" for ")]
        return of, "".join(trait)
    name = re.search(r"\w+", head)[0]
    return name, name if kind == "trait" else None


def end_of(lines, at, indent):
    """The number of a function's last line, of the lines that rt fmt lays out."""
    has_body = False
    for number in range(at, len(lines)):
        line = lines[number]
        if line in (indent + "}", indent + "{}") or number == at and line.endswith("}"):
            return number
        has_body |= line == indent + "{" or line.endswith("{") and not CLAUSE.match(line)
        if line.endswith(";") and not has_body:
            return number
    return len(lines) - 1


def clauses_of(lines, first, last):
    """The names of a function's `ensures`, in their order."""
    found = []
    for line in lines[first:last + 1]:
        match = CLAUSE.match(line)
        if match and line.lstrip().startswith("ensures"):
            found.append(match[1] or "ensures")
    return tuple(found)


def functions_in(file, module, text):
    """The functions of a source file, with the blocks that they stand in."""
    lines, found, blocks = text.split("\n"), [], []
    for at, line in enumerate(lines):
        indent = len(line) - len(line.lstrip())
        if line.strip() == "}":
            blocks = [it for it in blocks if it[0] < indent]
        block, fn = BLOCK.match(line), FN.match(line)
        if fn:
            last = end_of(lines, at, fn[1])
            within = [it for it in blocks if it[0] < indent]
            path = "::".join([*module, *[it[1] for it in within], fn[2]])
            of, trait = within[-1][1:] if within and within[-1][2] is not None else ("", "")
            found.append(Function(path, file, at + 1, last + 1, clauses_of(lines, at, last), of, trait))
        elif block and line.rstrip().endswith("{"):
            blocks.append((indent, *names_of(block[2], block[3])))
    return found


def is_proof_of(folder, function):
    """Whether the proof of a function stands in a folder below proofs/: a method's in one named by its type and trait."""
    names = [it.lstrip("+") for it in folder]
    if not function.of or len(names) < 2:
        return "::".join(names) == function.path
    if function.trait in ("", function.of):
        is_of = names[-2] == function.of
    else:
        is_of = names[-2].startswith((function.of, "Any")) and function.trait in names[-2]
    return is_of and function.path.split("::")[-1] == names[-1]


class Crate:
    """A crate's functions, edits and proof files."""

    def __init__(self, root, name):
        self.root, self.name, self.functions = root / "crates" / name, name, []
        for path in sorted((self.root / "src").rglob("*.rt")):
            file = path.relative_to(self.root)
            module = [it for it in file.with_suffix("").parts[1:] if it not in ("lib", "main", "mod")]
            self.functions += functions_in(str(file), module, path.read_text(encoding="utf-8"))

    def named(self, name):
        """The functions whose path ends so."""
        return [it for it in self.functions if f"::{it.path}".endswith(f"::{name}")]

    def at(self, file, line):
        """The path of the function with this line, or of what comes next (an attribute stands before it), or the file."""
        within = [it for it in self.functions if it.file == file and it.first <= line <= it.last]
        behind = [it for it in self.functions if it.file == file and it.first > line]
        found = (within or behind)[:1]
        return found[0].path if found else file

    def in_proof(self, file, line, said):
        """The function whose proof a file is, and the goal that is answered in a line; of a lemma, the file and its name."""
        goal = re.match(r"error: `([^`\s]+)`:", said)
        goal = goal[1] if goal else self.declared(file, line)
        found = [it.path for it in self.functions if is_proof_of(Path(file).parts[1:-1], it)]
        return Place(found[0], goal, True) if found else Place(file, goal)

    def declared(self, file, line):
        """What a proof file declares in a line, or above it."""
        try:
            lines = (self.root / file).read_text(encoding="utf-8").split("\n")[:line]
        except OSError:
            lines = []
        words = [re.match(r"(?:abbrev )?(?:pub )?([^\s:=]+) :", it) for it in lines]
        return next((it[1] for it in reversed(words) if it), "?")

    def place(self, said):
        """The place of the first error that rt tells, or None where it tells none."""
        match = PLACE.match(said)
        if not match:
            return None
        if match[1].startswith("proofs/"):
            return self.in_proof(match[1], int(match[2]), match[3])
        goal = re.search(r"\(`([^`\s]+)`?", match[3])
        return Place(self.at(match[1], int(match[2])), goal[1] if goal else " ".join(match[3].split()[:8]))


# What an edit says, and what is seen.

def read_place(text):
    words = text.split()
    return Place(words[0], words[1]) if len(words) == 2 else None


def read_edit(path):
    """The edit's own lines."""
    clause = seen = None
    for line in path.read_text(encoding="utf-8").split("\n"):
        if line.startswith("# clause: "):
            clause = read_place(line.removeprefix("# clause: "))
        match = re.match(r"# seen: (\S+ \S+): (?=\S)", line)
        if match:
            seen = read_place(match[1])
    return Edit(f"{path.parent.parent.name}/{path.stem}", clause, seen)


def is_of(place, function):
    """Whether a path that was seen is the function that an edit names."""
    return f"::{place}".endswith(f"::{function}") or f"::{function}".endswith(f"::{place}")


def is_clause(goal, clause, clauses):
    """Whether a goal is of this clause: by its name, or as one of a function's clauses that are proved together."""
    told = re.search(r"-clause-(\w+)$", goal)
    if goal.startswith("returns") or OF_LOOP.match(goal):
        if told and told[1] in clauses:
            return told[1] == clause
        return not clauses or clause in clauses
    return re.match(rf"{re.escape(clause)}(?:-|$)", goal) is not None


def clauses_at(crate, methods, function):
    """The clauses of the functions that are named so; a method that writes none has its trait's."""
    found = crate.named(function)
    return {name for it in found for name in it.clauses or methods.get((it.trait, it.path.split("::")[-1]), ("ensures",))}


def problem_of_line(edit, crate, methods):
    """What is wrong with the edit's own line, or None."""
    if edit.clause is None:
        return "it has no line '# clause: FUNCTION CLAUSE'"
    if not crate.named(edit.clause.function):
        return f"there is no function {edit.clause.function}"
    clauses = clauses_at(crate, methods, edit.clause.function)
    if edit.clause.goal not in clauses and not OTHER_GOAL.match(edit.clause.goal):
        return f"{edit.clause.function} has no clause {edit.clause.goal}"
    return None


def problem_of_seen(edit, crate, methods, said):
    """Why what rt said of an edit isn't the refusal that it names, or None, and the place that it told."""
    match = re.match(r"refused, as it must be(?: \((only .*?)\))?(?:: (.*))?$", said)
    if not match:
        return said.split(":")[0], None
    if match[1] and not edit.seen:
        return f"rt says less: {match[1][:60]}..", None
    place = crate.place(match[2] or "")
    if place is None:
        return "rt tells no place", None
    wanted = edit.seen or edit.clause
    clauses = clauses_at(crate, methods, wanted.function)
    if not is_of(place.function, wanted.function) or not is_clause(place.goal, wanted.goal, clauses):
        return f"it names {wanted.function} {wanted.goal}, and the first error is at {place.function} {place.goal}", place
    return None, place


# The page and the logs.

def page_lines(text):
    """The page's lines, by the edit's name: its clause, and what was seen."""
    found = {}
    for line in text.split("\n"):
        match = re.match(r"(\S+): (\S+ \S+); (.*)$", line)
        if match:
            found[match[1]] = (match[2], "" if match[3] == UNSEEN else match[3])
    return found


def page_of(rows):
    return HEAD + "".join(f"{name}: {clause}; {seen or UNSEEN}\n" for name, (clause, seen) in sorted(rows.items()))


def tried_in(texts):
    """What was said last of each edit."""
    return {f"{match[1]}/{match[2]}": match[3] for text in texts for match in map(TRIED.match, text.split("\n")) if match}


def methods_of(root):
    """The names of the clauses of each method of a trait, by the trait's and the method's name."""
    found = {}
    for path in sorted(root.glob("crates/*/src/**/*.rt")):
        for it in functions_in(str(path), [], path.read_text(encoding="utf-8")):
            if it.trait and it.path.split("::")[0] == it.trait:
                found[it.trait, it.path.split("::")[-1]] = it.clauses
    return found


def look(root, told, rows, is_written):
    """What is wrong, by edit, the page's rows as they are to be, and what is seen elsewhere for the first time: that is no fault before
    the page has it."""
    methods, wrong, wanted, crates, first = methods_of(root), [], {}, {}, []
    for path in sorted(root.glob("crates/*/must-fail/*.edit")):
        edit, name = read_edit(path), path.parent.parent.name
        if name not in crates:
            crates[name] = Crate(root, name)
        crate = crates[name]
        problem = problem_of_line(edit, crate, methods)
        clause, seen = edit.clause.text() if edit.clause else "", rows.get(edit.name, ("", ""))[1]
        if not problem and edit.name in told:
            problem, place = problem_of_seen(edit, crate, methods, told[edit.name])
            if problem and not seen and not is_written:
                first.append(f"note: {edit.name}, which {PAGE} has as {UNSEEN}: {problem}")
                problem, place = None, None
            seen = place.text() if place else seen
        elif not problem and told and not is_written:
            problem = "no log has it"
        if problem:
            wrong.append(f"{edit.name}: {problem}")
        wanted[edit.name] = clause, seen
    return wrong, wanted, first


def differences(rows, wanted):
    """What the page has otherwise than it is, and what is no fault: nothing seen yet, or another goal of the same function,
    since the prover may try these in another order."""
    wrong, notes = [], []
    for name in sorted({*rows, *wanted}):
        old, new = rows.get(name), wanted.get(name)
        if not old or not new or old[0] != new[0] or old[1] and old[1].split()[0] != new[1].split()[0]:
            wrong.append(f"{PAGE}: {name} stands there otherwise: python3 docs/edits.py --write LOG")
        elif old[1] != new[1]:
            notes.append(f"note: {PAGE} has of {name} {old[1] or UNSEEN}, and it's {new[1]}")
    return wrong, notes


def texts_of(names):
    try:
        return [Path(name).read_text(encoding="utf-8", errors="replace") for name in names]
    except OSError as error:
        print(f"edits: {error.filename} can't be read: {error.strerror}", file=sys.stderr)
        sys.exit(2)


def main(words, root=Path(__file__).resolve().parent.parent):
    is_written, names = "--write" in words, [it for it in words if it != "--write"]
    if any(it.startswith("-") for it in names) or is_written and not names:
        print("usage: python3 docs/edits.py [[--write] LOG..]", file=sys.stderr)
        return 2
    page = root / PAGE
    rows = page_lines(page.read_text(encoding="utf-8")) if page.exists() else {}
    wrong, wanted, notes = look(root, tried_in(texts_of(names)), rows, is_written)
    if is_written:
        page.write_text(page_of(wanted), encoding="utf-8")
    else:
        moved, other = differences(rows, wanted)
        wrong, notes = wrong + moved, notes + other
    seen = [it for _, it in wanted.values() if it]
    stored = sum(it.endswith(STORED) for it in seen)
    last = f"{len(wanted)} edits, {len(seen)} with what was seen, {stored} of these at a stored proof, {len(wrong)} wrong"
    print("\n".join([*notes, *wrong, last]))
    return 1 if wrong else 0


if __name__ == "__main__":
    sys.exit(main(sys.argv[1:]))
