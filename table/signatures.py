"""The kinds of operands of each row, as the code has them. In a clause they stand by hand, in Signature.antt."""

from formatting import WIDTH
from operands import shown_operands
from texts import by, patterns

SOURCE = "crates/cax64_operand/src/rows.rt"
ARMS = "        "
# How wide the items of an array may be on one line.
ARRAY_WIDTH = 60


def kinds(row):
    if row.nop:
        return ()
    return tuple(f"OperandKind::{operand.kind}" + (f"({operand.of})" if operand.of else "")
                 for operand in shown_operands(row))


def arm(rows, items):
    """An arm of the match: the rows, one below the other where they don't fit in a line, and their kinds."""
    names = patterns(rows)
    lines = [f"{ARMS}{' | '.join(names)}"]
    if len(f"{lines[0]} => &[") > WIDTH:
        lines = [f"{ARMS}{names[0]}", *(f"{ARMS}| {name}" for name in names[1:])]
    given = ", ".join(items)
    last = f"{lines[-1]} => &[{given}],"
    if len(given) <= ARRAY_WIDTH and len(last) <= WIDTH:
        return [*lines[:-1], last]
    return [*lines[:-1], f"{lines[-1]} => &[", *(f"{ARMS}    {item}," for item in items), f"{ARMS}],"]


def write(table, sources):
    found = by(table.rows, kinds)
    sources.part(SOURCE, "signatures", [line for items, rows in found.items() for line in arm(rows, items)])
