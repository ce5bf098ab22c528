"""Watches what a command's processes take: `Watch(pid)`, a thread that looks twice a second into /proc.

`rt ci` tells nothing of the processor's seconds that a crate took. So each process below it is looked at: one of `rattle` names its
crate in its words, and what it starts belongs to it. The last look before a process ends is what it took, so half a second of each may
be missed.
"""

import os
import threading
from collections import defaultdict
from pathlib import Path

EVERY = 0.5
KINDS = ("proof", "tests", "edits")
TICKS = os.sysconf("SC_CLK_TCK")
PAGE = os.sysconf("SC_PAGE_SIZE")


def share_of(words):
    """The crate of a process of `rattle` and what it does for it, by its words; None of another process."""
    if os.path.basename(words[0]) != "rattle" or "--crate-name" not in words[:-1]:
        return None
    crate = words[words.index("--crate-name") + 1]
    if any("/rt-edits-" in word for word in words):
        return crate, "edits"
    return crate, "tests" if "--test" in words else "proof"


def looked_at(pid):
    """When a process began, its parent, its seconds and its memory; None where it has ended."""
    try:
        fields = Path(f"/proc/{pid}/stat").read_text(encoding="utf-8", errors="replace").rpartition(")")[2].split()
    except OSError:
        return None
    return int(fields[19]), int(fields[1]), (int(fields[11]) + int(fields[12])) / TICKS, int(fields[21]) * PAGE


def words_of(pid):
    try:
        return Path(f"/proc/{pid}/cmdline").read_bytes().decode(errors="replace").split("\0")
    except OSError:
        return [""]


class Watch(threading.Thread):
    """What each crate took so far, by kind: seconds of the processor, and the most memory at once."""

    def __init__(self, pid):
        super().__init__(daemon=True)
        self.pid, self.ended = pid, threading.Event()
        self.shares, self.seconds, self.memory = {}, {}, defaultdict(int)

    def run(self):
        while not self.ended.wait(EVERY):
            self.look()

    def look(self):
        found = {int(name): seen for name in os.listdir("/proc") if name.isdigit() and (seen := looked_at(name))}
        now = defaultdict(int)
        for pid, (begun, _, seconds, memory) in found.items():
            share = self.share(pid, found)
            if share:
                self.seconds[share, pid, begun] = seconds
                now[share] += memory
        for share, memory in now.items():
            self.memory[share] = max(self.memory[share], memory)

    def share(self, pid, found):
        """Whose work a process does: its own crate's, or that of the one that started it. None where it isn't below the command."""
        mine = None
        while pid in found and pid != self.pid:
            begun, parent, _, _ = found[pid]
            if (pid, begun) not in self.shares:
                words = words_of(pid)
                share = share_of(words)
                # (a process that was just started may not have its own words yet)
                if share or words[0]:
                    self.shares[pid, begun] = share
            mine = mine or self.shares.get((pid, begun))
            pid = parent
        return mine if pid == self.pid else None

    def end(self):
        """Ends the watch, and gives each crate's seconds by kind and the most memory of its proof or its tests, in bytes."""
        self.ended.set()
        self.join()
        crates = defaultdict(lambda: dict.fromkeys((*KINDS, "memory"), 0))
        for (share, _, _), seconds in self.seconds.items():
            crates[share[0]][share[1]] += seconds
        for (crate, kind), memory in self.memory.items():
            if kind != "edits":
                crates[crate]["memory"] = max(crates[crate]["memory"], memory)
        return dict(crates)
