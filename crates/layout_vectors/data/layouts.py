#!/usr/bin/env python3
"""Makes layouts.tsv: lists of no-operations, jumps and places of labels, with the bytes that GNU as gives for the same list.

    python3 layouts.py > layouts.tsv

Jumps are written without a word about their length, so GNU as begins with the short forms and makes longer what doesn't
reach. A list's steps are `nop N`, `jump M LABEL` with a mnemonic, and `bind LABEL`.
"""

import pathlib
import random
import subprocess
import sys
import tempfile

sys.path.insert(0, str(pathlib.Path(__file__).resolve().parents[2] / "vectors/data"))
from jumps import CONDITIONS, NOPS, sections

LISTS = 2000


class List:
    """A list, and the same for GNU as."""

    def __init__(self, number, chance):
        self.number, self.chance = number, chance
        self.labels = chance.randint(1, 8)
        self.steps, self.lines = [], [f'.section .t{number}, "ax"']

    def name(self, label):
        return f".L{self.number}_{label}"

    def fill(self, size):
        while size:
            part = min(size, 9)
            self.steps.append(f"nop {part}")
            self.lines.append(NOPS[part])
            size -= part

    def jump(self, label):
        kind = self.chance.choice(["jmp", "jmp", "call"] + ["j" + c for c in CONDITIONS])
        self.steps.append(f"jump {kind} {label}")
        self.lines.append(f"{kind} {self.name(label)}")

    def bind(self, label):
        self.steps.append(f"bind {label}")
        self.lines.append(f"{self.name(label)}:")

    def write(self):
        """Places of labels between jumps and fillers, of which many are as long as a short jump just reaches."""
        chance = self.chance
        count = chance.randint(self.labels, 20)
        places = chance.sample(range(count), self.labels)
        for place in range(count):
            if place in places:
                self.bind(places.index(place))
            draw = chance.random()
            if draw < 0.6:
                self.jump(chance.randrange(self.labels))
            elif draw < 0.8:
                self.fill(chance.randint(1, 30))
            else:
                self.fill(chance.randint(90, 130))
        return self


def cascade(number, chance):
    """Jumps forward, each of which reaches in its short form only while all behind it have theirs."""
    made = List(number, chance)
    made.labels = chance.randint(10, 30)
    for label in range(made.labels):
        made.jump(label)
    made.fill(chance.randint(60, 130))
    for label in range(made.labels):
        made.bind(label)
        made.fill(chance.choice([0, 1, 2, 3, 5]))
    return made


def main():
    chance = random.Random(65)
    made = [cascade(number, chance) if number % 10 == 0 else List(number, chance).write() for number in range(LISTS)]
    with tempfile.TemporaryDirectory() as folder:
        source, target = pathlib.Path(folder, "all.s"), pathlib.Path(folder, "all.o")
        source.write_text("\n".join(line for one in made for line in one.lines) + "\n")
        subprocess.run(["as", "--64", "-o", target, source], check=True)
        found = sections(target.read_bytes())
    assert not any(name.startswith(".rela.t") for name in found)
    print("#list\tbytes")
    for one in made:
        print(" | ".join(one.steps), found[f".t{one.number}"].hex() or "-", sep="\t")


if __name__ == "__main__":
    main()
