"""The cases from outside, as bytes beside what they should mean: an instruction made from fields or from a reading, never
from bytes."""

import re
from typing import NamedTuple, Optional

from fields import Instruction, Memory, Register, Relative, View, immediate_bytes, tail_bytes

FIXED = {"al": 0, "ax": 0, "eax": 0, "rax": 0, "rcx": 1, "edx": 2, "rdx": 2, "rbx": 3}
IMMEDIATES = {"imm8": 1, "imm16": 2, "imm32": 4}


class Case(NamedTuple):
    """code: the instruction's bytes; shown: these and what follows. relative: where the field of a relative place stands,
    if there is one; is_noticed: whether that was told as a notice. before_tail: how many bytes stand before ModR/M, of a
    locked instruction. text: what to call it."""

    code: bytes
    shown: bytes
    instruction: Instruction
    relative: Optional[int]
    is_noticed: bool
    before_tail: Optional[int]
    text: str


def offsets_of(text):
    """The late offsets that a sink knows, by their keys."""
    return {} if text == "-" else {int(key): int(value) for key, value in (pair.split("=") for pair in text.split(","))}


def place_of_field(text, offsets):
    if text.startswith("reg:"):
        return Register(View(int(text[4:])))
    if text.startswith("rip:"):
        return Relative(0)
    said = dict(part.split(":") for part in text.split(","))
    displacement = int(said["disp"]) + (offsets[int(said["late"])] if "late" in said else 0)
    if "index" in said:
        return Memory(int(said["base"]), int(said["index"]), 1 << int(said["scale"]), displacement)
    return Memory(int(said["base"]), None, 1, displacement)


def instruction_of_fields(name, fields, offsets, length):
    reg = vvvv = place = immediate = None
    for part in [] if fields == "-" else fields.split(" "):
        field, value = part.split("=")
        if field in IMMEDIATES:
            immediate = int(value), IMMEDIATES[field]
        elif field in FIXED:
            if int(value) != FIXED[field]:
                raise ValueError(f"{name}: {field} is {value}")
        elif re.fullmatch(r"m\d+|rm\d+|xmm_m\d+", field):
            place = place_of_field(value, offsets)
        elif re.fullmatch(r"r\d+|r\d+a|xmm1", field):
            reg = View(int(value))
        elif re.fullmatch(r"r\d+b|xmm2", field):
            vvvv = int(value)
        else:
            raise ValueError(f"{name}: {field} is no field")
    value, width = immediate or (None, 0)
    if isinstance(place, Relative):
        place = Relative(-width)  # what the field holds until it is patched
    return Instruction(name, reg, vvvv, place, value, length)


def view_of(text):
    if text == "-":
        return None
    kind, number = text.split(":")
    return View(int(number), kind == "high")


def instruction_of_reading(row, length, reg, vvvv, place, immediate):
    where = None
    if place.startswith("reg:"):
        where = Register(view_of(place[4:]))
    elif place.startswith("rip:"):
        where = Relative(int(place[4:]))
    elif place.startswith("mem:"):
        said = dict(part.split("=") for part in place[4:].split(","))
        index, factor = (None, 1) if said["index"] == "-" else map(int, said["index"].split("*"))
        where = Memory(None if said["base"] == "-" else int(said["base"]), index, factor, int(said["disp"]))
    number = None if vvvv == "-" else int(vvvv)
    return Instruction(row, view_of(reg), number, where, None if immediate == "-" else int(immediate), length)


def case_of_fields(columns):
    name, fields, offsets, code, notices = columns[0], columns[1], columns[2], bytes.fromhex(columns[7]), columns[9]
    instruction = instruction_of_fields(name, fields, offsets_of(offsets), len(code))
    target = re.search(r"target@(\d+)=", notices)
    before = None
    if instruction.has_lock:
        before = len(code) - tail_bytes(instruction.place) - immediate_bytes(name)
    text = " ".join((name, fields, offsets, columns[7]))
    return Case(code, code, instruction, int(target[1]) if target else None, target is not None, before, text)


def case_of_reading(columns):
    """Of a line that has a reading; the field of a relative place is the last of its tail."""
    if columns[2] == "none":
        return None
    shown, length, tail = bytes.fromhex(columns[0]), int(columns[3]), int(columns[4])
    instruction = instruction_of_reading(columns[2], length, *columns[5:9])
    behind = length - immediate_bytes(instruction.row)
    is_relative = instruction.has_memory and isinstance(instruction.place, Relative)
    before = behind - tail if instruction.has_lock else None
    return Case(shown[:length], shown, instruction, behind - 4 if is_relative else None, False, before, " ".join(columns))


def cases_of(path):
    """The cases of a file, and how many of its lines have no reading and so say nothing."""
    found, silent = [], 0
    with open(path, encoding="utf-8") as file:
        made = case_of_reading if file.readline().startswith("#bytes") else case_of_fields
        for line in file:
            case = made(line.rstrip("\n").split("\t"))
            if case is None:
                silent += 1
            else:
                found.append(case)
    return found, silent
