#!/usr/bin/env python3
"""Makes jumps.tsv: scripts of pushes, jumps and binds, with the bytes that GNU as gives for the same list.

    python3 jumps.py > jumps.tsv

A jump whose label is bound already is written without a word about its length: GNU as has the short form where it reaches. One
forward is written with `{disp32}`, and so has four bytes of distance. Calls have no other form. The script's steps are those
of buffers.tsv; `jump M T` is a jump with this mnemonic.
"""

import pathlib
import random
import struct
import subprocess
import tempfile

SCRIPTS = 2000
CONDITIONS = "o no b ae e ne be a s ns p np l ge le g".split()

# the number of bytes, as a step and as GNU as has it
NOPS = {
    1: "nop",
    2: "xchg %ax, %ax",
    3: "nopl (%rax)",
    4: "{disp8} nopl 0(%rax)",
    5: "{disp8} nopl 0(%rax, %rax)",
    6: "{disp8} nopw 0(%rax, %rax)",
    7: "{disp32} nopl 0(%rax)",
    8: "{disp32} nopl 0(%rax, %rax)",
    9: "{disp32} nopw 0(%rax, %rax)",
}


class Script:
    """A script and the same list for GNU as."""

    def __init__(self, number, chance):
        self.number = number
        self.chance = chance
        self.labels = chance.randint(1, 4)
        self.bound = set()
        self.steps = ["new_label"] * self.labels
        self.lines = [f'.section .t{number}, "ax"']

    def name(self, label):
        return f".L{self.number}_{label}"

    def nop(self, size):
        self.steps.append(f"push nop_{size}b -")
        self.lines.append(NOPS[size])

    def fill(self, size):
        while size > 9:
            self.nop(9)
            size -= 9
        if size > 0:
            self.nop(size)

    def jump(self, label):
        kind = self.chance.choice(["jmp", "call"] + ["j" + c for c in CONDITIONS] * 2)
        far = "" if label in self.bound or kind == "call" else "{disp32} "
        self.steps.append(f"jump {kind} label:{label}")
        self.lines.append(f"{far}{kind} {self.name(label)}")

    def memory(self, label):
        if self.chance.random() < 0.5:
            self.steps.append(f"push callq_m rm64=rip:label:{label}")
            self.lines.append(f"call *{self.name(label)}(%rip)")
        else:
            self.steps.append(f"push cmpps_a xmm1=3 xmm_m128=rip:label:{label} imm8=170")
            self.lines.append(f"cmpps $170, {self.name(label)}(%rip), %xmm3")

    def bind(self, label):
        self.steps.append(f"bind label:{label}")
        self.lines.append(f"{self.name(label)}:")
        self.bound.add(label)

    def step(self):
        label = self.chance.randrange(self.labels)
        draw = self.chance.random()
        if draw < 0.2 and label not in self.bound:
            self.bind(label)
        elif draw < 0.55:
            self.jump(label)
        elif draw < 0.65:
            self.memory(label)
        else:
            self.fill(self.chance.choice([1, 2, 3, 5, 9, 20, 60, 115, 125]))

    def at_an_end(self):
        """A jump whose distance is at an end of what one byte holds, or next to it."""
        self.bind(0)
        self.fill(self.chance.randint(124, 130))
        self.jump(0)


def script_of(number, chance):
    script = Script(number, chance)
    if number % 4 == 0:
        script.at_an_end()
    for _ in range(chance.randint(2, 12)):
        script.step()
    for label in range(script.labels):
        if label not in script.bound:
            script.bind(label)
    return script


def sections(data):
    """The bytes of each section of an ELF64 file, by name."""
    start, = struct.unpack_from("<Q", data, 0x28)
    size, count, names = struct.unpack_from("<HHH", data, 0x3A)
    if count == 0:
        count, = struct.unpack_from("<Q", data, start + 32)
    heads = [struct.unpack_from("<IIQQQQII", data, start + k * size) for k in range(count)]
    if names == 0xFFFF:
        names = heads[0][6]
    texts = heads[names][4]
    found = {}
    for name, kind, _flags, _addr, at, length, _link, _info in heads:
        end = data.index(b"\0", texts + name)
        found[data[texts + name:end].decode()] = data[at:at + length]
    return found


def main():
    chance = random.Random(60)
    scripts = [script_of(number, chance) for number in range(SCRIPTS)]
    with tempfile.TemporaryDirectory() as folder:
        source = pathlib.Path(folder, "all.s")
        target = pathlib.Path(folder, "all.o")
        source.write_text("\n".join(line for s in scripts for line in s.lines) + "\n")
        subprocess.run(["as", "--64", "-o", target, source], check=True)
        found = sections(target.read_bytes())
    assert not any(name.startswith(".rela.t") for name in found)
    print("#script\tfinish")
    for script in scripts:
        print(" | ".join(script.steps), "ok:" + (found[f".t{script.number}"].hex() or "-"), sep="\t")


if __name__ == "__main__":
    main()
