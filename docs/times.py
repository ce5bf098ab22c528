#!/usr/bin/env python3
"""Holds what pages say of speed to the tables in which it was measured; with --write puts the tables' numbers in their place.

The tables of docs/SPEED.md, docs/PERF.md and docs/C.md are the source: what stands in them was measured once, as the text
beside them says. Each sentence of CLAIMS says one of their numbers again, or what follows from some; it is compared with them,
as precisely as it says it. RATIOS are columns of tables that follow from others. On the pages of RECORDLESS every number of
nanoseconds, and every part of the public crate's time, has to be in such a sentence.

Run at the top: python3 docs/times.py [--write]. The status is 0 where all agree, 1 where something differs or a sentence of
CLAIMS is on no page, and 2 where a table or a cell isn't there; then a sentence says which.
"""
import re
import sys
from functools import cache
from pathlib import Path

ROOT = Path(__file__).resolve().parent.parent
NUMBER = r"(\d+(?:\.\d+)?)"

# Pages that have no measurements of their own.
RECORDLESS = ("README.md", "CHANGES.md", "docs/ARCHITECTURE.md", "docs/BACK_END.md", "docs/DIFFERENCES.md", "docs/MACHINE_CODE.md",
              "docs/PROVED.md", "docs/PROVING.md", "docs/TRUSTED.md", "docs/USING.md")
TIME = rf"{NUMBER}\s+(?:ns\b|of\s+the\s+public\s+crate's)"


class Missing(Exception):
    """A table or a cell that isn't there."""


@cache
def page(name):
    return (ROOT / name).read_text(encoding="utf-8")


@cache
def tables(name):
    """The tables of a page, each with the heading above it, its columns, and its rows by their first cell."""
    found, heading, rows = [], "", []
    for line in [*page(name).splitlines(), ""]:
        if line.startswith("#"):
            heading = line.lstrip("# ")
        if line.startswith("|"):
            rows.append([cell.strip() for cell in line.split("|")[1:-1]])
        elif rows:
            found.append((heading, rows[0], {row[0]: row for row in rows[2:]}))
            rows = []
    return found


def table(name, heading, number):
    here = [(columns, rows) for above, columns, rows in tables(name) if above == heading]
    if len(here) < number:
        raise Missing(f"{name} has {len(here)} tables below \"{heading}\", and not {number}")
    return here[number - 1]


def cell(name, heading, number, row, column, place=0):
    """A number of a table, the number-th below a heading: by its row, its column, and which number of the cell it is."""
    def value():
        columns, rows = table(name, heading, number)
        if row not in rows or column >= len(columns):
            raise Missing(f"{name}, \"{heading}\": table {number} has no cell of {row} in column {column}")
        numbers = re.findall(NUMBER, rows[row][column])
        if place >= len(numbers):
            raise Missing(f"{name}, \"{heading}\": {row} has no such number in \"{rows[row][column]}\"")
        return float(numbers[place])
    return value


def over(first, second):
    return lambda: first() / second()


def less(first, second):
    return lambda: first() - second()


def times(first, second):
    return lambda: first() * second()


def least(*values):
    return lambda: min(value() for value in values)


def most(*values):
    return lambda: max(value() for value in values)


def said(name, sentence, place):
    """A number of a sentence, which a cell of a table may be too."""
    def value():
        match = form_of(sentence).search(page(name))
        if not match:
            raise Missing(f"{name} has no sentence {sentence}")
        return float(match[place])
    return value


@cache
def form_of(sentence):
    """A sentence whose spaces may be ends of lines."""
    return re.compile(sentence.replace(" ", r"\s+"))


# The tables: which numbers stand where.

RANDOM, GROUPED, IDIOMATIC = 1, 2, 3
PUBLIC = "the public crate's `encode`"


def over_orders(row, column, place=0):
    """Over ten orders of the functions: the least, the mean, its error."""
    return cell("docs/SPEED.md", "Against what", 2, row, column, place)


def of_core(row, column):
    """In parts of the public crate's time over the same list, the least over ten orders of the functions."""
    return cell("docs/SPEED.md", "The core", 1, row, column)


def of_proved(row, column):
    """In nanoseconds, of proved builds: in random order and grouped by kind."""
    return cell("docs/SPEED.md", "The core", 2, row, column)


def since(job, column):
    """Then over now: of the medians, over ten orders; the instructions now over then."""
    return cell("docs/PERF.md", "Since 5a4606d", 1, f"`{job}`", column)


def beside(job):
    return cell("docs/PERF.md", "Since 5a4606d", 2, f"`{job}`", 2)


def counted(call, column):
    """Instructions of the processor for a call from C: at first, then, before and now."""
    return cell("docs/C.md", "How fast", 1, f"`{call}`", column)


def from_c(row, column):
    """Of a call from C: nanoseconds in random order, their part of the public crate's, and the same grouped by line."""
    return cell("docs/C.md", "How fast", 2, row, column)


def nanoseconds(row, columns):
    """What a row beside the core takes: its parts of the public crate's time, each times that."""
    return [times(of_core(row, column), of_core(PUBLIC, column)) for column in columns]


CORE = nanoseconds("`core_encode_all`", (RANDOM, GROUPED, IDIOMATIC))
RENAMED = nanoseconds("`core_rename`", (RANDOM, GROUPED, IDIOMATIC))
ENUMERATION = nanoseconds("`encode_all`", (RANDOM, GROUPED, IDIOMATIC))
KEPT, READ = "`read_inst`, kept", "`read_inst`, called from C"
TRAPS_CHOSEN = rf"`hq_encode_all` {NUMBER} to {NUMBER} ns in random order, {NUMBER} to {NUMBER} grouped by line"
KEYED = rf"`hq_decode` {NUMBER} to {NUMBER} ns, grouped by line {NUMBER} to {NUMBER},"
ANY = None

# Sentences of pages, and where each number of theirs stands, or how it follows; ANY for one that stands nowhere else.
CLAIMS = (
    ("README.md", rf"is encoded in {NUMBER} of the public crate's time, and as instructions of the core in {NUMBER}",
     over_orders("`encode_all`", RANDOM), of_core("`core_encode_all`", RANDOM)),
    ("docs/SPEED.md", rf"Kept, it took {NUMBER} and {NUMBER} ns", of_proved(KEPT, RANDOM), of_proved(KEPT, GROUPED)),
    ("docs/SPEED.md", rf"it takes {NUMBER} and 12.9 ns, of the public crate's {NUMBER} and",
     times(over_orders("`encode_checked`", GROUPED), over_orders(PUBLIC, GROUPED)), over_orders(PUBLIC, GROUPED)),
    ("docs/SPEED.md", rf"the core takes {NUMBER} to {NUMBER} ns to encode in any order of kinds, where the enumeration takes {NUMBER} "
     rf"to {NUMBER} for the same instructions; it's renamed in {NUMBER} to {NUMBER},",
     least(*CORE), most(*CORE), least(*ENUMERATION), most(*ENUMERATION), least(*RENAMED), most(*RENAMED)),
    ("docs/SPEED.md", rf"the job `core` takes {NUMBER} of the time of `functions_checked`", beside("core")),
    ("docs/SPEED.md", rf"put in {NUMBER} and {NUMBER} of the time that the public crate takes to put alone; its text takes {NUMBER} "
     rf"and {NUMBER} of",
     over(of_proved("`encode_checked`", RANDOM), of_proved(PUBLIC, RANDOM)),
     over(of_proved("`encode_checked`", GROUPED), of_proved(PUBLIC, GROUPED)),
     over(of_proved("`to_string`", RANDOM), of_proved("the public crate's `to_string`", RANDOM)),
     over(of_proved("`to_string`", GROUPED), of_proved("the public crate's `to_string`", GROUPED))),
    ("docs/PERF.md", rf"of the instructions at 5a4606d before, and {NUMBER} now", since("functions", 3)),
    ("docs/PERF.md", rf"`hq_check` {NUMBER} to {NUMBER} of the processor's instructions, `hq_rename` {NUMBER} to {NUMBER} ",
     counted("hq_check", 2), counted("hq_check", 3), counted("hq_rename", 2), counted("hq_rename", 3)),
    ("docs/PERF.md", TRAPS_CHOSEN, ANY, from_c("`hq_encode_all`", 1), ANY, from_c("`hq_encode_all`", 3)),
    ("docs/PERF.md", KEYED, ANY, from_c("`hq_decode`", 1), ANY, from_c("`hq_decode`", 3)),
    ("docs/C.md", rf"It took {NUMBER} and {NUMBER} while a line's number was tested again",
     said("docs/PERF.md", TRAPS_CHOSEN, 1), said("docs/PERF.md", TRAPS_CHOSEN, 3)),
    ("docs/C.md", rf"it took {NUMBER} and {NUMBER} before a line of the core was looked up by its key",
     said("docs/PERF.md", KEYED, 1), said("docs/PERF.md", KEYED, 3)),
    ("docs/C.md", rf"Here it takes {NUMBER} and {NUMBER} less",
     less(from_c(READ, 1), from_c("`hq_decode`", 1)), less(from_c(READ, 3), from_c("`hq_decode`", 3))),
    ("docs/C.md", rf"took {NUMBER} and {NUMBER} \(\[SPEED\.md\]\(SPEED\.md\)\), so {NUMBER} and {NUMBER} more than `hq_decode`",
     of_proved(KEPT, RANDOM), of_proved(KEPT, GROUPED), less(of_proved(KEPT, RANDOM), from_c("`hq_decode`", 1)),
     less(of_proved(KEPT, GROUPED), from_c("`hq_decode`", 3))),
)

# Columns that are a quotient of others, as precisely as these are given: a table, the column, and the cells of each row.
RATIOS = (
    *((("docs/PERF.md", "Times", 1, row, 3), ("docs/PERF.md", "Times", 1, row, 1), ("docs/PERF.md", "Times", 1, row, 2))
      for row in ("`functions`", "`small_functions`", "`large_functions`", "`lists`", "`reading`", "`listings`")),
    *((("docs/C.md", "How fast", 2, row, column + 1), ("docs/C.md", "How fast", 2, row, column), ("docs/C.md", "How fast", 2, PUBLIC, column))
      for row in ("`hq_encode`", "`hq_encode_all`", "`hq_decode`", "`hq_decode_all`", READ) for column in (1, 3)),
)


def decimals(text):
    return len(text.partition(".")[2])


def shown(value, like):
    """A number as precisely as another one stands on a page."""
    return f"{value:.{decimals(like)}f}"


def text_of(name, heading, number, row, column):
    cell(name, heading, number, row, column)()
    return re.search(NUMBER, table(name, heading, number)[1][row][column])[0]


def quotients():
    """The columns that don't follow from the others, whatever was cut off of each number."""
    for place, *parts in RATIOS:
        ratio, first, second = (text_of(*at) for at in (place, *parts))
        half = [10 ** -decimals(text) / 2 for text in (ratio, first, second)]
        low = (float(first) - half[1]) / (float(second) + half[2])
        high = (float(first) + half[1]) / (float(second) - half[2])
        if not low - half[0] <= float(ratio) <= high + half[0]:
            yield f"{place[0]}, \"{place[1]}\": of {place[3]} {ratio} isn't {first} over {second}"


def claims():
    for name, sentence, *values in CLAIMS:
        matches = list(form_of(sentence).finditer(page(name)))
        if not matches:
            yield f"{name} has no sentence {sentence}"
        for match in matches:
            for text, value in zip(match.groups(), values):
                if value and shown(value(), text) != text:
                    yield f"{name}: {' '.join(match[0].split())}: it is {shown(value(), text)}, and not {text}"


def orphans():
    """Times on pages without tables of them that no claim has."""
    for name in RECORDLESS:
        spans = [match.span() for other, sentence, *_ in CLAIMS if other == name for match in form_of(sentence).finditer(page(name))]
        for match in re.finditer(TIME, page(name)):
            if not any(start <= match.start() < end for start, end in spans):
                yield f"{name}: {match[0]}: no sentence of CLAIMS has it"


def written(name):
    """A page with what the tables say in the place of the numbers of its sentences."""
    text = page(name)
    for other, sentence, *values in CLAIMS:
        for match in reversed(list(form_of(sentence).finditer(text))) if other == name else ():
            for place in range(len(values), 0, -1):
                if values[place - 1]:
                    start, end = match.span(place)
                    text = f"{text[:start]}{shown(values[place - 1](), match[place])}{text[end:]}"
    return text


def main(given):
    if given not in ([], ["--write"]):
        print(__doc__, file=sys.stderr)
        return 2
    try:
        for name in sorted({claim[0] for claim in CLAIMS}) if given else ():
            text = written(name)
            (ROOT / name).write_text(text, encoding="utf-8")
            page.cache_clear()
            tables.cache_clear()
        found = [*quotients(), *claims(), *orphans()]
    except Missing as lost:
        print(f"times: {lost}", file=sys.stderr)
        return 2
    print("\n".join([*found, f"times: {len(CLAIMS)} sentences, {len(found)} differ"]))
    return 1 if found else 0


if __name__ == "__main__":
    sys.exit(main(sys.argv[1:]))
