#!/usr/bin/env python3
"""Gives write.py exports, structs and items that it has to refuse, with the sentence that each gets."""

import sys
from pathlib import Path

HERE = Path(__file__).resolve().parent
sys.path.insert(0, str(HERE.parent))

import write  # noqa: E402

HEAD = "#[unsafe(no_mangle)]\npub extern \"C\" fn hq_x"
BAD_EXPORTS = {
    "it has no clause": HEAD + "(a: u32) -> i32\n{\n    0\n}\n",
    "it requires something of its caller": HEAD + "(a: u32) -> i32\n    requires { a ≡ 0 }\n    ensures { result ≡ pos 0 }\n{\n    0\n}\n",
    "what it answers is no integer": HEAD + "(a: u32) -> bool\n    ensures { result ≡ true }\n{\n    true\n}\n",
    "doesn't cross": HEAD + "(a: bool) -> i32\n    ensures { result ≡ pos 0 }\n{\n    0\n}\n",
    "is exported otherwise": '#[unsafe(no_mangle)]\npub static X: u32 = 0;\n',
}
BAD_STRUCTS = {
    "padding before it": "    pub a: u8,\n    pub b: u32,",
    "padding at its end": "    pub a: u32,\n    pub b: u8,",
    "is no integer": "    pub a: bool,",
    "a duty of the caller's": "    pub a: u32,\n    ghost small: { a ≡ 0 },",
}
BAD_ABI = {
    "HQ_VERSION is as before": ("HQ_VERSION = 1\nhq_inst.line: u16 at 0\n", "HQ_VERSION = 1\nhq_inst.line: u16 at 2\n"),
}


BAD_CONDITIONS = {
    "HQ_ITEM_JAE is 6 here, and by the list of conditions 7": {"HQ_ITEM_JAE": 6, "HQ_ITEM_JB": 7},
    "HQ_ITEM_JB is None here": {"HQ_ITEM_JB": None},
    "HQ_ITEM_JC is 6 here, and by the list of conditions None": {"HQ_ITEM_JC": 6},
}


def sentence_of(does):
    try:
        does()
    except write.Refused as refused:
        return str(refused)
    return "nothing is refused"


def exports_of(text, folder):
    (folder / "x.rt").write_text(text, encoding="utf-8")
    write.EXPORT_FOLDER = folder
    return write.exports({})


def judge_items(others):
    """The items of the conditions, of which some have other numbers or none."""
    items = {**write.condition_items(), **others}
    write.judge_conditions([write.Constant([], name, "u32", value) for name, value in items.items() if value is not None])


def main():
    failed = 0
    folder = HERE.parent / "out/exports"
    folder.mkdir(parents=True, exist_ok=True)
    tried = [(wanted, lambda text=text: exports_of(text, folder)) for wanted, text in BAD_EXPORTS.items()]
    tried += [(wanted, lambda text=text: write.struct_of("", "X", text)) for wanted, text in BAD_STRUCTS.items()]
    tried += [(wanted, lambda pair=pair: write.judge_abi(*pair)) for wanted, pair in BAD_ABI.items()]
    tried += [(wanted, lambda items=items: judge_items(items)) for wanted, items in BAD_CONDITIONS.items()]
    for wanted, does in tried:
        got = sentence_of(does)
        if wanted not in got:
            failed += 1
            print(f"test_write: wanted: {wanted}; got: {got}")
    print(f"test_write: {len(tried)} refused, {failed} otherwise")
    return 1 if failed else 0


if __name__ == "__main__":
    sys.exit(main())
