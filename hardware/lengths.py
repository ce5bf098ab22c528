"""How many bytes the processor takes for an instruction: as many as stand at a page's end, when it asks for none behind it.
There is a page of data, which can be read and written, but not executed."""

import random
import tempfile

import semantics
from states import CODE, MASKED, PAGE, RESERVED_AND_INTERRUPTS, STACK, Trial, canonical
from stepper import SIGILL, SIGSEGV, Stepper

SEED = 1
MOST = 15
NOT_ALLOWED = 2  # SEGV_ACCERR
CHUNK = 1500


class Cut:
    """What a trial asks of a case: the bytes, of which so many stand at the page's end."""

    def __init__(self, string):
        self.code = string


def request_of(rng, string, length):
    """The first bytes of a string at the end of the page of code, in a state by chance."""
    trial = Trial(Cut(string), "cut")
    trial.state = semantics.State([canonical(rng) for _ in range(16)], CODE + PAGE - length, RESERVED_AND_INTERRUPTS, MASKED,
                                  bytes(16 * semantics.VECTOR))
    trial.state.general[semantics.RSP] = STACK + PAGE // 2
    trial.pages = [CODE, CODE + PAGE, STACK]
    return trial.request(string[:length])


def asks_for_more(answer):
    """Whether the byte behind the page was asked for, which may not be executed."""
    return answer.signal == SIGSEGV and answer.code == NOT_ALLOWED and answer.fault == CODE + PAGE


def measured(step, strings):
    """Of each string how many of its bytes the processor takes, or None where it asks for more, and whether these are an
    instruction."""
    rng, found = random.Random(SEED), []
    for first in range(0, len(strings), CHUNK):
        some = strings[first:first + CHUNK]
        tried = [range(1, min(MOST, len(string)) + 1) for string in some]
        answers = iter(step([request_of(rng, string, length) for string, lengths in zip(some, tried) for length in lengths]))
        for lengths in tried:
            seen = [(length, answer) for length, answer in zip(lengths, answers)]
            enough = next(((length, answer.signal != SIGILL) for length, answer in seen if not asks_for_more(answer)), (None, False))
            found.append(enough)
    return found


def measure(strings):
    """The same, with a program of its own to take the steps."""
    with tempfile.TemporaryDirectory(prefix="hardware-") as folder:
        return measured(Stepper(folder), strings)
