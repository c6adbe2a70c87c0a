"""The page of instructions: it is as made, and what keeps it from being made is told."""

import os
import shutil
import subprocess
import sys
import tempfile
import unittest

from base import TOP

PARTS = ("tools/instructions", "tools/instructions.words", "docs/INSTRUCTIONS.md", "crates/mw_tables/specs/Rows.antt",
         "crates/mw_tables/specs/Layouts.antt", "crates/mw_tables/src/row.rt", "crates/mw_isa/specs/Operations.antt")
WORDS = "tools/instructions.words"


class InstructionsTest(unittest.TestCase):
    """The script on a copy of all that it reads."""

    def setUp(self):
        folder = tempfile.TemporaryDirectory()
        self.addCleanup(folder.cleanup)
        self.folder = folder.name
        for part in PARTS:
            os.makedirs(os.path.dirname(os.path.join(self.folder, part)), exist_ok=True)
            shutil.copy(os.path.join(TOP, part), os.path.join(self.folder, part))

    def change(self, part, old, new):
        """Changes a text that stands once in a file."""
        path = os.path.join(self.folder, part)
        with open(path, encoding="utf-8") as file:
            text = file.read()
        self.assertEqual(text.count(old), 1)
        with open(path, "w", encoding="utf-8") as file:
            file.write(text.replace(old, new))

    def run_script(self, *words):
        """The status, standard output and standard error of the script with these words."""
        run = subprocess.run([sys.executable, os.path.join(self.folder, "tools", "instructions"), *words],
                             capture_output=True, text=True, check=False)
        return run.returncode, run.stdout, run.stderr

    def check_refused(self, line):
        """Checks that the page is refused by this line, made or looked at."""
        for words in ([], ["--check"]):
            self.assertEqual(self.run_script(*words), (1, "", "instructions: %s\n" % line))

    def test_page_is_as_made(self):
        self.assertEqual(self.run_script("--check"), (0, "instructions: 224 rows, as made\n", ""))

    def test_page_is_made_again(self):
        self.change("docs/INSTRUCTIONS.md", "| `pnop` |", "| `pnap` |")
        self.assertEqual(self.run_script("--check"),
                         (1, "", "instructions: docs/INSTRUCTIONS.md isn't as made: run tools/instructions\n"))
        self.assertEqual(self.run_script(), (0, "instructions: 224 rows, written\n", ""))
        self.assertEqual(self.run_script("--check")[0], 0)

    def test_row_without_words(self):
        self.change(WORDS, "neg | I | RT = -RA\n", "")
        self.check_refused("neg has no words in tools/instructions.words")

    def test_words_without_a_row(self):
        self.change(WORDS, "neg | I | RT = -RA\n", "neg | I | RT = -RA\nabs | I | RT = RA without its sign\n")
        self.check_refused("tools/instructions.words: abs has no row")

    def test_words_at_the_place_of_others(self):
        self.change(WORDS, "add | I | RT = RA + RB\nsubf | I | RT = RB - RA\n",
                    "subf | I | RT = RB - RA\nadd | I | RT = RA + RB\n")
        self.check_refused("tools/instructions.words: subf stands where the table has add")

    def test_words_twice(self):
        self.change(WORDS, "neg | I | RT = -RA\n", "neg | I | RT = -RA\nneg | I | RT = -RA\n")
        status, _, errors = self.run_script("--check")
        self.assertEqual(status, 1)
        self.assertRegex(errors, r"^instructions: tools/instructions.words:[0-9]+: neg has words already\n$")

    def test_line_of_words_that_is_none(self):
        self.change(WORDS, "neg | I | RT = -RA\n", "neg | I\n")
        status, _, errors = self.run_script("--check")
        self.assertEqual(status, 1)
        self.assertRegex(errors, r"^instructions: tools/instructions.words:[0-9]+: no line of a name, a book and words\n$")

    def test_row_of_another_name(self):
        self.change("crates/mw_tables/specs/Rows.antt", '(codes "neg")', '(codes "nego")')
        self.check_refused("nego has no words in tools/instructions.words")

    def test_unknown_word(self):
        self.assertEqual(self.run_script("--look")[0], 2)


if __name__ == "__main__":
    unittest.main()
