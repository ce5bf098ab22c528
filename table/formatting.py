"""Text as `rt fmt` leaves it."""

import re
import textwrap

WIDTH = 100
DOC_WIDTH = 120
# How wide the arguments of a call may be on one line, and the fields of a struct that is made.
CALL_WIDTH = 60
STRUCT_WIDTH = 18


def in_order(names):
    """Names sorted as `use` has them: numbers within them by their value."""
    return sorted(names, key=lambda name: [int(part) if part.isdigit() else part for part in re.split(r"(\d+)", name)])


def filled(items, indent):
    """Lines with as many items as fit in each; the formatter keeps a column for the space behind the last comma."""
    lines = []
    for item in items:
        if lines and len(f"{lines[-1]} {item}, ") <= WIDTH:
            lines[-1] += f" {item},"
        else:
            lines.append(f"{indent}{item},")
    return lines


def use(path, names, indent="", keyword="use"):
    """A `use` of names of a module, in their order."""
    names = in_order(names)
    if not names:
        return []
    if len(names) == 1:
        return [f"{indent}{keyword} {path}::{names[0]};"]
    line = f"{indent}{keyword} {path}::{{{', '.join(names)}}};"
    if len(line) <= WIDTH:
        return [line]
    return [f"{indent}{keyword} {path}::{{", *filled(names, indent + "    "), f"{indent}}};"]


def ghost_use(path, names):
    return f"ghost use Rattle.{path}.{{{', '.join(names)}}};"


def doc(text):
    lines = textwrap.wrap(text, DOC_WIDTH - len("/// "), break_long_words=False, break_on_hyphens=False)
    return [f"/// {line}" for line in lines]


def arm(patterns, body, indent):
    """One arm of a match."""
    pattern = " | ".join(patterns)
    line = f"{indent}{pattern} => {body},"
    if len(line) <= WIDTH:
        return [line]
    if len(f"{indent}{pattern} =>") <= WIDTH:
        return [f"{indent}{pattern} =>", f"{indent}    {body},"]
    first, *others = patterns
    return [f"{indent}{first}", *(f"{indent}| {other}" for other in others[:-1]), f"{indent}| {others[-1]} => {body},"]


def arms(patterns, body, indent, width=WIDTH):
    """An arm, or where its patterns don't fit in a line as many arms as there are lines; none for no patterns."""
    if not patterns:
        return []
    if len(f"{indent}{' | '.join(patterns)} =>") <= WIDTH:
        return arm(patterns, body, indent)
    lines = []
    for pattern in patterns:
        longer = f"{lines[-1]} | {pattern}" if lines else ""
        if lines and len(f"{longer} => {body},") <= width:
            lines[-1] = longer
        else:
            lines.append(f"{indent}{pattern}")
    return [f"{line} => {body}," for line in lines]


def call(function, arguments, indent):
    """A call among other arguments, with its own below one another where they are too wide for one line."""
    given = ", ".join(arguments)
    if len(arguments) == 1 or len(given) <= CALL_WIDTH:
        return [f"{indent}{function}({given}),"]
    return [f"{indent}{function}(", *(f"{indent}    {argument}," for argument in arguments), f"{indent}),"]
