"""The program that takes steps, step.c, and what it answers."""

import os
import shutil
import struct
import subprocess
from pathlib import Path

from states import REQUEST

HERE = Path(__file__).resolve().parent

REGISTERS = struct.Struct("<17Q")
REST = struct.Struct("<QQIIIIII32Q32s")
VECTORS_AT, REST_AT = REGISTERS.size, REGISTERS.size + 1024
ANSWER = REST_AT + REST.size
SIGILL, SIGTRAP, SIGFPE, SIGSEGV = 4, 5, 8, 11
TRACE_STEP, KERNEL = 2, 0x80
CANT_TRACE = 3


class NotHere(Exception):
    """What this machine lacks: its word in HUQMERIS_WITHOUT, and a sentence."""


class Answer:
    """What the processor did."""

    def __init__(self, data):
        *self.general, self.rip = REGISTERS.unpack_from(data)
        self.vectors = data[VECTORS_AT:REST_AT]
        self.flags, self.fault, self.signal, self.code, self.mxcsr, self.other, changes, _, *rest = \
            REST.unpack_from(data, REST_AT)
        self.changed = dict(zip(rest[:min(changes, 32)], rest[32]))

    def event(self):
        return f"signal {self.signal}, code {self.code}, at {self.fault:x}"


class Stepper:
    """The program that takes steps, built from step.c."""

    def __init__(self, folder):
        self.folder = Path(folder)
        self.program = self.folder / "step"
        self.steps = 0
        compiler = next(filter(None, map(shutil.which, (os.environ.get("CC", "cc"), "gcc", "clang"))), None)
        if compiler is None:
            raise NotHere("gcc", "it has no C compiler")
        built = subprocess.run([compiler, "-O2", "-o", self.program, HERE / "step.c"], stderr=subprocess.PIPE, text=True,
                               check=False)
        if built.returncode:
            complaint = next(iter(built.stderr.splitlines()), "nothing is said")
            raise NotHere("gcc", f"{compiler} can't build step.c, for x86-64 and Linux: {complaint}")
        sizes = subprocess.check_output([self.program, "sizes"]).split()
        if [int(size) for size in sizes] != [REQUEST.size, ANSWER]:
            raise ValueError(f"step.c has records of {sizes}")

    def __call__(self, requests):
        asked, answered = self.folder / "requests", self.folder / "answers"
        asked.write_bytes(b"".join(requests))
        done = subprocess.run([self.program, asked, answered], stderr=subprocess.PIPE, text=True, check=False)
        if done.returncode == CANT_TRACE:
            raise NotHere("ptrace", "it traces no child")
        if done.returncode or done.stderr:
            raise OSError(f"step: status {done.returncode}: {done.stderr}")
        self.steps += len(requests)
        data = answered.read_bytes()
        return [Answer(data[at:at + ANSWER]) for at in range(0, len(data), ANSWER)]
