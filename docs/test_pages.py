#!/usr/bin/env python3
"""Tests the scripts of docs/ that hold pages to what they speak of: each difference is told, and what they write is as before.

Each runs in a folder of its own, over copies of the pages and scripts, with what these read beside them. Run at the top:
python3 docs/test_pages.py
"""
import re
import shutil
import subprocess
import sys
import tempfile
import unittest
from pathlib import Path

ROOT = Path(__file__).resolve().parent.parent
LINKED = ("crates", "table", "hardware", "c")
COPIED = ("README.md", "CHANGES.md", "crates.txt")


class Pages(unittest.TestCase):
    def setUp(self):
        kept = tempfile.TemporaryDirectory(prefix="pages-")
        self.addCleanup(kept.cleanup)
        self.top = Path(kept.name)
        for name in LINKED:
            (self.top / name).symlink_to(ROOT / name)
        for name in COPIED:
            shutil.copy(ROOT / name, self.top / name)
        shutil.copytree(ROOT / "docs", self.top / "docs", ignore=shutil.ignore_patterns("__pycache__"))

    def change(self, name, form, new, count=1):
        """Puts something in the place of the first text of a file that has this form."""
        path = self.top / name
        text, changed = re.subn(form, new, path.read_text(encoding="utf-8"), count=count, flags=re.M)
        self.assertGreaterEqual(changed, 1, f"{name} has no {form}")
        path.write_text(text, encoding="utf-8")

    def run_script(self, name, *given):
        done = subprocess.run([sys.executable, f"docs/{name}.py", *given], cwd=self.top, stdout=subprocess.PIPE,
                              stderr=subprocess.STDOUT, text=True, check=False)
        return done.returncode, done.stdout

    def refuses(self, said, status, name, *given):
        code, told = self.run_script(name, *given)
        self.assertIn(said, told)
        self.assertEqual(code, status, told)

    def restores(self, page, name, *given):
        """The script writes the page as it stands in the repository."""
        self.assertEqual(self.run_script(name, *given)[0], 0)
        self.assertEqual((self.top / page).read_text(encoding="utf-8"), (ROOT / page).read_text(encoding="utf-8"))


class Words(Pages):
    def test_a_file_too_few(self):
        self.change("docs/TRUSTED.md", r"^\|  \| `Tail` \| .*\n", "")
        self.refuses("not as the sources have it", 1, "words", "--check")
        self.restores("docs/TRUSTED.md", "words")

    def test_a_file_too_many(self):
        self.change("docs/TRUSTED.md", r"^(\|  \| )`Tail`( \| .*\n)", r"\1`Tail`\2\1`Evex`\2")
        self.refuses("not as the sources have it", 1, "words", "--check")

    def test_another_number_of_lines(self):
        self.change("docs/TRUSTED.md", r"`Fields` \d+", "`Fields` 1")
        self.refuses("not as the sources have it", 1, "words", "--check")
        self.restores("docs/TRUSTED.md", "words")

    def test_a_clause_that_is_not_there(self):
        self.change("docs/words.py", r'"read_inst", "is"', '"read_inst", "was"')
        self.refuses("read_inst of x64_reader/src/rows.rt has no clause was", 2, "words", "--check")

    def test_a_function_that_is_not_there(self):
        self.change("docs/words.py", r'"hq_decode", ""', '"hq_undecode", ""')
        self.refuses("has 0 functions hq_undecode with clauses", 2, "words", "--check")

    def test_a_promise_that_is_not_followed(self):
        self.change("README.md", r"\| `read_inst`: `is` \|", "| `read_outst`: `is` |")
        self.refuses("README.md promises something of `read_outst`, which docs/words.py doesn't follow", 1, "words", "--check")

    def test_a_clause_of_the_first_page_that_is_not_there(self):
        self.change("README.md", r"\| `read_inst`: `is` \|", "| `read_inst`: `isnt` |")
        self.refuses("read_inst of x64_reader/src/rows.rt has no clause isnt", 2, "words", "--check")

    def test_a_page_without_a_mark(self):
        self.change("docs/TRUSTED.md", r"^<!-- docs/words.py: types -->\n", "")
        self.refuses("has no part <!-- docs/words.py: types -->", 2, "words", "--check")

    def test_another_word(self):
        self.refuses("Run at the top", 2, "words", "--chek")


class House(Pages):
    def test_a_crate_in_no_section(self):
        self.change("crates.txt", r"^# == definitions ==\n", "")
        self.refuses("cax64_sink stands in no section", 1, "house")

    def test_a_crate_in_two_sections(self):
        self.change("crates.txt", r"^# == layout:.*\n", r"\g<0>cax64_sink:\n")
        self.refuses("cax64_sink stands in definitions and in layout", 1, "house")

    def test_a_section_twice(self):
        self.change("crates.txt", r"^# == layout:.*\n", r"# == encoder: on definitions ==\n")
        self.refuses("crates.txt has two sections encoder", 1, "house")

    def test_a_crate_that_stands_on_one_of_a_later_section(self):
        self.change("crates.txt", r"^x64_layout:", "x64_layout: cax64_feature")
        self.refuses("x64_layout stands on cax64_feature, and the section layout isn't on port", 1, "house")

    def test_a_section_on_one_behind_it(self):
        self.change("crates.txt", r"^# == encoder: on definitions ==", "# == encoder: on definitions layout ==")
        self.refuses("the section encoder stands on layout, which isn't a section before it", 1, "house")

    def test_a_name_of_another_section(self):
        self.change("crates.txt", r"^x64_layout:", "cax64_layout:")
        self.refuses("cax64_layout of the section layout doesn't begin with x64_", 1, "house")

    def test_a_crate_that_is_not_drawn(self):
        self.change("docs/ARCHITECTURE.md", r"^             x64_layout   .*\n", "")
        self.refuses("x64_layout isn't drawn", 1, "house")

    def test_a_crate_that_is_drawn_twice(self):
        self.change("docs/ARCHITECTURE.md", r"^             x64_layout   ", "             x64_layout x64_layout   ")
        self.refuses("x64_layout is drawn twice", 1, "house")

    def test_a_crate_on_the_line_of_another(self):
        self.change("docs/ARCHITECTURE.md", r"^C            huqmeris_c   .*\n  +x64_plain", "C            huqmeris_c x64_plain")
        self.refuses("huqmeris_c stands on x64_plain, which isn't drawn below it", 1, "house")

    def test_a_crate_that_is_drawn_in_another_section(self):
        self.change("docs/ARCHITECTURE.md", r"^layout      ", "encoder     ")
        self.refuses("x64_assemble is drawn in encoder, and doesn't stand there in crates.txt", 1, "house")

    def test_a_crate_without_a_row(self):
        self.change("docs/ARCHITECTURE.md", r"^\| `x64tiny` .*\n", "")
        self.refuses("no row of the table has x64tiny", 1, "house")


class Times(Pages):
    def test_a_number_that_no_table_has(self):
        self.change("README.md", r"encoded in \d\.\d\d of", "encoded in 9.99 of")
        self.refuses("and not 9.99", 1, "times")
        self.restores("README.md", "times", "--write")

    def test_a_number_that_does_not_follow(self):
        self.change("docs/C.md", r"Here it takes \d+ and", "Here it takes 5 and")
        self.refuses("and not 5", 1, "times")
        self.restores("docs/C.md", "times", "--write")

    def test_a_quotient_that_is_none(self):
        self.change("docs/PERF.md", r"^\| `reading` \| 2\.750", "| `reading` | 3.750")
        self.refuses("of `reading` 2.56 isn't 3.750 over 1.076", 1, "times")

    def test_a_sentence_that_is_gone(self):
        self.change("docs/SPEED.md", r"the job `core` takes", "the job `core` took")
        self.refuses("docs/SPEED.md has no sentence", 1, "times")

    def test_a_time_that_no_sentence_has(self):
        self.change("README.md", r"^# Huqmeris$", "# Huqmeris\n\nIt takes 12 ns.")
        self.refuses("README.md: 12 ns: no sentence of CLAIMS has it", 1, "times")

    def test_a_row_that_is_gone(self):
        self.change("docs/SPEED.md", r"^\| `core_encode_all` \| 0\.\d\d,.*\n", "")
        self.refuses("has no cell of `core_encode_all`", 2, "times")


class Reference(Pages):
    def test_another_text(self):
        self.change("docs/API.md", r"^# Public items$", "# Items")
        self.refuses("not as the sources have it", 1, "api", "--check")
        self.restores("docs/API.md", "api")

    def test_an_item_that_does_not_say_it(self):
        self.change("docs/silent.txt", r"^AsReg::new\n", "")
        self.refuses("AsReg::new doesn't say what a build that wasn't proved does", 1, "api", "--check")
        self.refuses("AsReg::new doesn't say what a build that wasn't proved does", 1, "api")

    def test_items_that_say_it_or_have_no_condition(self):
        self.change("docs/silent.txt", r"^AsReg::new\n", "AsReg::new\nInstruction::encode\nInstruction::first_fault\n")
        code, told = self.run_script("api", "--check")
        self.assertEqual(code, 1, told)
        self.assertIn("Instruction::encode is to be taken from docs/silent.txt\n", told)
        self.assertIn("Instruction::first_fault is to be taken from docs/silent.txt\n", told)
        self.restores("docs/silent.txt", "api")


class Numbers(Pages):
    def setUp(self):
        """What is executed is told by a script in the place of hardware/count.py, which takes seconds."""
        super().setUp()
        (self.top / "hardware").unlink()
        (self.top / "hardware").mkdir()
        page = (ROOT / "docs/MACHINE_CODE.md").read_text(encoding="utf-8")
        rows = re.findall(r"(?m)^\| `(\w+\.tsv)` \| ([\d,]+).* \| 0 \| ([\d,]+) \|$", page)
        self.told = [f"{name} {count.replace(',', '')} {steps.replace(',', '')}" for name, count, steps in rows]
        self.tell()

    def tell(self):
        (self.top / "hardware/count.py").write_text(f"print({chr(10).join(self.told)!r})\n", encoding="utf-8")

    def test_other_numbers(self):
        self.change("docs/GATE.md", r"and \d+ must-fail edits", "and 7 must-fail edits")
        self.refuses("and not 7\n", 1, "numbers")
        self.restores("docs/GATE.md", "numbers", "--write")

    def test_a_number_over_the_end_of_a_line(self):
        self.change("README.md", r"these are (\d+) files\s+of", r"these are 24 files\nof")
        self.refuses("24 files of", 1, "numbers")

    def test_what_is_executed(self):
        self.told[0] = "instructions.tsv 6093 44607"
        self.tell()
        code, told = self.run_script("numbers")
        self.assertEqual(code, 1, told)
        self.assertIn("docs/MACHINE_CODE.md", told)
        self.assertIn("README.md", told)

    def test_a_sentence_that_no_page_has(self):
        self.change("docs/MACHINE_CODE.md", r"^\| `reader\.tsv` \|", "| `readers.tsv` |")
        self.refuses("no page says: `reader.tsv`", 1, "numbers")

    def test_a_file_of_words_that_no_table_has(self):
        self.change("docs/TRUSTED.md", r"`Fields` \d+, ", "")
        self.refuses("the table of words lacks Fields of cax64_machine_code", 1, "numbers")

    def test_another_word(self):
        self.refuses("Run at the top", 2, "numbers", "--wirte")


if __name__ == "__main__":
    unittest.main()
