"""How the lines of the core print: a mnemonic and a style for each."""

from core_lines import CORE

SPECS = "crates/x64_text/specs/Mnemonics.antt"
MNEMONICS = "crates/x64_text/src/mnemonic.rt"
STYLES = "crates/x64_text/src/style.rt"

# The styles of rows that call or jump by an operand.
INDIRECT = ("call", "jump")

HEAD = """\
use Rattle.std.specs.Prelude.{ℕ, List, [], ◌∷◌, codes}

-- The mnemonics of the core's lines, by their numbers: those of all rows, and behind them of `table/core.txt`, in AT&T's
-- form. Each is the line's name up to its first underscore, or behind `lock_` up to the next one."""


def mnemonic(line):
    """That of its name. A row of a no-operation with an operand has its own here, as an instruction with this operand."""
    if line.name.startswith("lock_"):
        return "lock " + line.name.split("_")[1]
    return line.name.split("_")[0]


def spec(lines):
    found = [f'    codes "{mnemonic(line)}" ∷  -- {line.name}' for line in lines]
    return [*HEAD.split("\n"), "unfoldable pub mnemonics : List (List ℕ)", "mnemonics =", *found, "    []"]


def mnemonics(lines):
    found = [f'    "{mnemonic(line)}", // {line.name}' for line in lines]
    return [f"static MNEMONICS: [&str; {len(lines)}] = [", *found, "];"]


def style(line):
    """A call or a jump by a distance is a branch of so many bytes; one by an operand is indirect. Where memory has a
    mnemonic of its own, that is the other one and an x."""
    if line.immediate and line.immediate.reading == "distance":
        return f"Branch({len(line.code.opcode_bytes) + line.immediate.size // 8})"
    if line.memory_mnemonic:
        return "Wide"
    return "Indirect" if line.style in INDIRECT else "Plain"


def styles(lines):
    found = [f"    Style::{style(line)}, // {line.name}" for line in lines]
    return [f"static STYLES: [Style; {len(lines)}] = [", *found, "];"]


def write(table, core, sources):
    lines = [*table.rows, *core.lines]
    sources.whole(SPECS, spec(lines), CORE)
    sources.part(MNEMONICS, "mnemonics", mnemonics(lines))
    sources.part(STYLES, "styles", styles(lines))
