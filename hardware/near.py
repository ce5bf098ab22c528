"""The strings of near.tsv, beside what three disassemblers read: how many bytes the processor takes, whether that is an
instruction, and what it does with those that are a line of the core."""

import random
from collections import Counter, defaultdict
from pathlib import Path
from typing import NamedTuple, Optional

import core_states
import lengths
import states
from cases import Case
from core import CoreInstruction
from fields import Instruction, Relative
from reader import Reader, all_lines, all_rows

BEHIND = bytes(range(1, 9))
CHUNK = 20000
# Of so many strings of each line that are read as a line all is compared that the processor does.
COMPARED = 12


class Near(NamedTuple):
    """A line of the file: the line of the core whose string was changed, that which is read or None, why not, how many bytes it
    has, and the string, behind which others may stand."""

    origin: str
    line: Optional[int]
    reason: str
    length: Optional[int]
    string: bytes


def strings_of(path):
    found, origin = [], ""
    for text in Path(path).read_text(encoding="utf-8").splitlines()[1:]:
        if text.startswith("#"):
            origin = text.split()[1]
            continue
        what, length, string = text.split("\t")
        line = int(what) if what.isdigit() else None
        found.append(Near(origin, line, what, None if length == "-" else int(length), bytes.fromhex(string)))
    return found


def case_of(near, reader, count):
    """A string as the line that the disassemblers read, with its operands."""
    string = near.string[:near.length]
    read = reader.read_row_of(near.line, string)
    fields = (read.row, read.reg) if near.line >= count else (read.row, read.reg, read.vvvv)
    made = CoreInstruction if near.line >= count else Instruction
    instruction = made(*fields, read.place, read.immediate, near.length)
    is_relative = instruction.has_memory and isinstance(read.place, Relative)
    relative = near.length - reader.immediate_size(near.line) - 4 if is_relative else None
    before = reader.before_tail(near.line, string) if instruction.has_lock else None
    return Case(string, string, instruction, relative, False, before, f"{near.origin}, as {near.line}")


def is_made(case):
    """Whether states are made for it: of the core's own lines none is for an operand relative to the end."""
    return not (isinstance(case.instruction, CoreInstruction) and isinstance(case.instruction.place, Relative))


def cases_of(path):
    """Some strings of each line that is read, and how many aren't looked at here."""
    reader, count = Reader(all_lines()), len(all_rows())
    every, of_line = strings_of(path), defaultdict(list)
    for near in every:
        if near.line is not None:
            of_line[near.line].append(near)
    chosen = []
    for number, some in sorted(of_line.items()):
        cases = [case for case in (case_of(near, reader, count) for near in some) if is_made(case)]
        chosen += random.Random(number).sample(cases, min(COMPARED, len(cases)))
    return chosen, len(every) - len(chosen)


def trials_of(machine, case, rng, left_out):
    module = core_states if isinstance(case.instruction, CoreInstruction) else states
    return module.trials_of(machine, case, rng, left_out)


class Lengths:
    """Each string in a state of its own, whole and a byte shorter, at a page's end."""

    def __init__(self, step, path):
        self.step, self.path = step, Path(path)
        self.strings = strings_of(path)
        self.counts, self.wrong = Counter(), []

    def run(self):
        rng = random.Random(lengths.SEED)
        for first in range(0, len(self.strings), CHUNK):
            some = self.strings[first:first + CHUNK]
            tried = [[near.length, near.length - 1] if near.length else [lengths.MOST] for near in some]
            requests = [lengths.request_of(rng, near.string + BEHIND, length) for near, sizes in zip(some, tried) for length in sizes]
            answers = iter(self.step(requests))
            for near, sizes in zip(some, tried):
                self.compare(near, [next(answers) for _ in sizes])
        self.tell()
        return not self.wrong

    def compare(self, near, answers):
        whole, shorter = answers[0], answers[1:]
        is_right = not lengths.asks_for_more(whole) and all(map(lengths.asks_for_more, shorter))
        if near.reason == "undefined":
            is_right = is_right and whole.signal == lengths.SIGILL
        self.counts[near.origin] += 1
        if not is_right:
            self.wrong.append((near, whole))

    def tell(self):
        print(f"{self.path.name}: {len(self.strings) - len(self.wrong)} of {len(self.strings)} strings have the length and are an "
              f"instruction as said, at least {min(self.counts.values())} of each of {len(self.counts)} lines")
        for near, answer in self.wrong[:40]:
            print(f"DIFFERS {near.origin}: {near.string.hex(' ')}, {near.reason} of {near.length} bytes: {answer.event()}")
