#!/usr/bin/env python3
"""Gives what makes the archive that isn't proved small texts and sources, with what each has to become."""

import sys
import tempfile
from pathlib import Path

HERE = Path(__file__).resolve().parent
sys.path.insert(0, str(HERE.parent))

import exports_program  # noqa: E402
import without_checks  # noqa: E402
import write  # noqa: E402

SOURCE = """\
//! Functions with attributes.

/// A method.
impl Pair {
    /// Its sum.
    #[inline(always)]
    pub fn sum(&self) -> u32 {
        0
    }

    #[cold]
    #[inline(never)]
    fn refuse(&self) -> u32 {
        0
    }
}

impl<T: Copy> Sink for Vec<T> {
    #[inline]
    fn put(&mut self) {}
}

#[derive(Clone)]
pub fn sum() -> u32 {
    0
}
"""

BEFORE = """\
define internal noundef i32 @"a::calls::hq_x"(ptr noundef %a0) #0 {
start:
  %r0 = alloca i32, align 4
  call void @llvm.memset.p0.i64(ptr %r0, i8 -86, i64 4, i1 false)
  call void @llvm.memset.p0.i64(ptr %r0, i8 0, i64 4, i1 false)
  call void @"rattle-llvm-checks::Alignment"(i8 1)
  %r1 = call i32 @"a::pair::Pair::sum::<#12>"(ptr %a0)
  ret i32 %r1

no:
  call void @llvm.trap()
  unreachable
}
define internal noundef i32 @"a::pair::Pair::sum::<#12>"(ptr noundef %a0) #0 {
  ret i32 0
}
define i32 @main() #0 {
  %r1 = call i32 @"a::calls::hq_x"(ptr null)
  ret i32 %r1
}
attributes #0 = { nounwind sanitize_address "frame-pointer"="all" "probe-stack"="inline-asm" "target-cpu"="x86-64" }
attributes #7 = { sanitize_address "frame-pointer"="all" }
"""

AFTER = """\
define noundef i32 @hq_x(ptr noundef %a0) #0 {
start:
  %r0 = alloca i32, align 4
  call void @llvm.memset.p0.i64(ptr %r0, i8 0, i64 4, i1 false)
  %r1 = call i32 @"a::pair::Pair::sum::<#12>"(ptr %a0)
  ret i32 %r1

no:
  unreachable
}
define internal noundef i32 @"a::pair::Pair::sum::<#12>"(ptr noundef %a0) alwaysinline #0 {
  ret i32 0
}
define internal i32 @main() #0 {
  %r1 = call i32 @hq_x(ptr null)
  ret i32 %r1
}
attributes #0 = { nounwind "probe-stack"="inline-asm" "target-cpu"="x86-64-v2" }
attributes #7 = { nounwind }
"""

# What each function of the source is called in the compiler's text, and the attributes that it gets.
NAMES = (
    ("a::pair::Pair::sum", "alwaysinline"),
    ("a::pair::Pair::refuse::<u8,#3f>", "cold noinline"),
    ("a::pair::sum", ""),
    ("a::pair::VecTSink::put::<#00>", "inlinehint"),
    ("a::pair::Pair::gone", ""),
    ("b::pair::Pair::sum", ""),
)


def attributes(room):
    (room / "pair.rt").write_text(SOURCE, encoding="utf-8")
    return without_checks.Attributes([("a", room)])


def refusal(does):
    try:
        does()
    except (write.Refused, without_checks.Unexpected) as refused:
        return str(refused)
    return "nothing is refused"


def differences(room):
    """What isn't so."""
    found = attributes(room)
    for name, wanted in NAMES:
        if found.of(name) != wanted:
            yield f"{name} has {found.of(name) or 'no attribute'}, and not {wanted or 'none'}"
    made = without_checks.converted(BEFORE, "a", ["hq_x"], found)
    if made != AFTER:
        yield f"a text became\n{made}"
    if "hq_y is defined 0 times" not in refusal(lambda: without_checks.converted(BEFORE, "a", ["hq_y"], found)):
        yield "an export that isn't there is taken"
    kept = BEFORE.replace("call void @llvm.trap()", "call void @llvm.trap() #5")
    if "llvm.trap is left" not in refusal(lambda: without_checks.converted(kept, "a", ["hq_x"], found)):
        yield "a check that is left is taken"


def of_program(room):
    """What isn't so of the program of the exports."""
    exports_program.source(room)
    main = (room / "main.rt").read_text(encoding="utf-8")
    exports = [export.name for export in write.exports(write.structs())]
    for name in exports:
        if main.count(f"::{name}(") != 1:
            yield f"the program calls {name} {main.count(f'::{name}(')} times"
    file, one, zero = exports_program.PROVED
    copy = (room / file).read_text(encoding="utf-8")
    if zero not in copy or one in copy:
        yield "the copy says that it is proved"
    if "cfg(test)" in main or (room / "rows.rt").exists():
        yield "the program has tests"
    exports_program.PROVED = (file, "const ELSE: u32 = 1;", zero)
    if "couldn't say that it isn't proved" not in refusal(lambda: exports_program.source(room)):
        yield "a crate that can't say that it isn't proved is taken"


def main():
    with tempfile.TemporaryDirectory() as one, tempfile.TemporaryDirectory() as other:
        found = [*differences(Path(one)), *of_program(Path(other))]
    print("\n".join([*(f"test_unproved: {it}" for it in found), f"test_unproved: {len(found)} differ"]))
    return 1 if found else 0


if __name__ == "__main__":
    sys.exit(main())
