"""How the instructions of a row print, and what they ask of a processor."""

from formatting import arm, arms
from reading import EXTENSIONS, STYLES

ARMS = "        "
ARMS_OF_METHOD = "            "

ELEMENTS = {"ps": "PackedSingle", "pd": "PackedDouble", "ss": "ScalarSingle", "sd": "ScalarDouble"}

# How many bytes opcode and immediate of a row have where the code doesn't list it.
COMMON_LENGTH = 1
# The list of lengths stands two columns narrower than others.
LENGTHS_WIDTH = 98


def patterns(rows):
    return [f"Row::{row.name}" for row in rows]


def by(rows, key):
    """The rows by what they have in common, in the order of the first ones."""
    found = {}
    for row in rows:
        found.setdefault(key(row), []).append(row)
    return found


def runs(rows, key):
    """Rows that stand together and have this in common."""
    found = []
    for row in rows:
        if found and key(found[-1][-1]) == key(row):
            found[-1].append(row)
        else:
            found.append([row])
    return found


def mnemonics(rows):
    lines = []
    for mnemonic, found in by(rows, lambda row: row.printed_mnemonic).items():
        lines += arm(patterns(found), f'"{mnemonic}"', ARMS)
    return lines


def memory_mnemonics(rows):
    return [f'{ARMS}Row::{row.name} if !register => "{row.memory_mnemonic}",' for row in rows if row.memory_mnemonic]


def shift_names(rows):
    """Mnemonics of shifts without the letter of the width; the last one is that of all others."""
    shifts = by([row for row in rows if row.style == "shift"], lambda row: row.printed_mnemonic[:-1])
    lines = []
    for name, found in list(shifts.items())[:-1]:
        lines += arm(patterns(found), f'"{name}"', ARMS)
    return lines + [f'{ARMS}_ => "{name}",' for name in list(shifts)[-1:]]


def style_of(row):
    if row.style != "compare":
        return row.style.capitalize()
    compare = "VexCompare" if row.code.vex else "Compare"
    return f"{compare}(Elements::{ELEMENTS[row.printed_mnemonic[-2:]]})"


def styles(rows):
    """The styles but the plain one, in their order."""
    styled = [row for style in STYLES for row in rows if row.style == style]
    lines = []
    for run in runs(styled, style_of):
        lines += arms(patterns(run), f"Style::{style_of(run[0])}", ARMS_OF_METHOD)
    return lines


def length(row):
    return len(row.code.opcode_bytes) + (row.immediate.size // 8 if row.immediate else 0)


def lengths(rows):
    lines = []
    for count, found in sorted(by(rows, length).items()):
        if count != COMMON_LENGTH:
            lines += arms(patterns(found), str(count), ARMS, LENGTHS_WIDTH)
    return lines


def modes(rows):
    return arms(patterns([row for row in rows if row.is_64_bit]), "true", ARMS)


def extensions(rows):
    found = by(rows, lambda row: row.extension)
    lines = []
    for extension in EXTENSIONS:
        if extension in found:
            lines += arm(patterns(found[extension]), f"Some(Feature::{extension})", ARMS)
    return lines


def write(table, sources):
    rows = table.rows
    mnemonic = "crates/cax64_text/src/mnemonic.rt"
    sources.part(mnemonic, "mnemonics", mnemonics(rows))
    sources.part(mnemonic, "memory", memory_mnemonics(rows))
    sources.part(mnemonic, "shifts", shift_names(rows))
    style = "crates/cax64_text/src/style.rt"
    sources.part(style, "styles", styles(rows))
    sources.part(style, "lengths", lengths(rows))
    feature = "crates/cax64_feature/src/rows.rt"
    sources.part(feature, "modes", modes(rows))
    sources.part(feature, "extensions", extensions(rows))
