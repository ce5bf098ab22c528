#!/usr/bin/env python3
"""Tells which code blocks of the pages don't stand, word for word, in a source file of crates/.

Each paragraph of a block has to stand in one and the same file, as whole lines. Run at the top: python3 docs/quotes.py
"""
import glob
import sys

PAGES = ["README.md", *sorted(glob.glob("docs/*.md"))]


def blocks(text):
    """The code blocks of a page in Rattle, each with the number of its first line."""
    block, start = None, 0
    for number, line in enumerate(text.split("\n"), 1):
        if line == "```rust":
            block, start = [], number + 1
        elif line == "```" and block is not None:
            yield start, "\n".join(block)
            block = None
        elif block is not None:
            block.append(line)


sources = {}
for name in glob.glob("crates/*/src/**/*.rt", recursive=True):
    with open(name, encoding="utf-8") as file:
        sources[name] = "\n" + file.read()
count = 0
lost = []
for page in PAGES:
    with open(page, encoding="utf-8") as file:
        for start, block in blocks(file.read()):
            count += 1
            parts = block.split("\n\n")
            if not any(all(f"\n{part}\n" in text for part in parts) for text in sources.values()):
                lost.append(f"{page}:{start}: {parts[0].split(chr(10))[0]}")
print("\n".join([*lost, f"{count - len(lost)} quoted, {len(lost)} lost"]))
sys.exit(1 if lost else 0)
