#!/usr/bin/env python3
"""Builds the archive ../out/libread_inst.a: the port's reader, `read_inst`, as one call from C, with which `bench` times `hq_decode`.

It takes the libraries below as `rt ci` or `rt check` left them, and proves the few lines that stand here, which are no crate of
crates.txt. What is read is an `enum` in parts, which doesn't cross to C: it's put into memory of the call's own, whole, and its
length is answered.

The status is 0 where it's built, 1 where something isn't proved, and 2 where a library below isn't there.
"""

import sys
import tempfile
from pathlib import Path

sys.path.insert(0, str(Path(__file__).resolve().parent.parent))

import build  # noqa: E402  (c/build.py)

SOURCE = """\
//! The reader of the port's rows, as one call from C.
#![tactic(auto)]

ghost use Rattle.std.specs.Prelude.{◌≡◌, MatchOption};
ghost use Rattle.cax64_machine_code.specs.Reading.{read};

use cax64_machine_code::reading::Reading;
use x64_reader::read_inst;

/// Reads into a place. It isn't inlined, so that all of the reading is put into memory.
#[inline(never)]
fn read_into(bytes: &[u8], out: &mut Option<Reading>)
    ensures { out.new ≡ read bytes.now }
{
    *out = read_inst(bytes);
}

/// Reads the instruction at the front of some bytes, and says how many it has, 0 where there is none.
#[unsafe(no_mangle)]
pub extern "C" fn read_inst_length(bytes: &[u8]) -> u32
    ensures { MatchOption (read bytes.now) (result ≡ 0) (λ reading. result ≡ reading.length) }
{
    let mut place = None;
    read_into(bytes, &mut place);
    match place {
        None => 0,
        Some(reading) => u32::from(reading.length),
    }
}
"""


def main():
    build.OUT.mkdir(exist_ok=True)
    with tempfile.TemporaryDirectory() as folder:
        source = Path(folder) / "src/lib.rt"
        source.parent.mkdir()
        source.write_text(SOURCE, encoding="utf-8")
        return build.build("read_inst", folder, ["cax64_machine_code", "x64_reader"], [("llvm", str(build.OUT / "libread_inst.a"))])


if __name__ == "__main__":
    sys.exit(main())
