"""picture: the whole text of a small one, and what holds of each."""

import os
import random
import subprocess
import sys
import unittest
import xml.etree.ElementTree as xml

import made
from base import TESTS, TOOLS, TOP, ToolTest

sys.path.insert(0, TOOLS)

from mwtracelib import grid, trace  # noqa: E402

LARGEST = 2_000_000
SVG = "{http://www.w3.org/2000/svg}"


def small_events():
    """A loop, traps and interrupts with their handlers, and cycles without an event."""
    cycle = 2
    for turn in range(30):
        for step in range(0, 32, 4):
            yield "R %d %016x 38630001" % (cycle, 0x100 + step)
            cycle += 1 + (step == 16) * (turn % 5)
        if turn % 6 == 5:
            yield "T %d 0000000000000120 0c00" % cycle
            yield "R %d c000000000000c00 4c000024" % (cycle + 9)
            cycle += 10
        if turn % 10 == 9:
            yield "I %d 0000000000000120 0900" % cycle
            yield "R %d c000000000000900 04100000 e4a00038" % (cycle + 4)
            cycle += 6


SYMBOLS = [("loop<&>", 0x100, 0, 2, 1, 1), ("decrementer", 0xC000000000000900, 0, 2, 1, 1),
           ("a_name_that_is_too_long_for_its_place", 0xC000000000000C00, 0, 2, 1, 1)]
# What the UART sent in it: "Hi, <mw> &", a new line, a backslash, and two bytes that are no characters.
SENT = "48692c203c6d773e20260a5c00ff"


class PictureTest(ToolTest):
    """The word picture."""

    def picture(self, *words):
        """The text of the picture that these words make."""
        self.assertEqual(self.run_tool("picture", *words, "-o", "made.svg"), (0, "", ""))
        with open(os.path.join(self.folder, "made.svg"), encoding="utf-8") as file:
            return file.read()

    def texts(self, picture):
        """All texts that a picture shows without being pointed at."""
        found = []
        for text in xml.fromstring(picture).iter(SVG + "text"):
            found.append((text.text or "") + "".join(child.tail or "" for child in text))
        return found

    def check_kept(self, name, picture):
        """Checks a picture against the one that is kept beside the tests, which was looked at in a browser."""
        with open(os.path.join(TESTS, "data", name), encoding="utf-8") as file:
            self.assertEqual(picture, file.read())

    def test_kept_example(self):
        self.check_kept("euclid.svg", self.picture("data/euclid.txt", "--nm", "data/euclid.nm"))

    def test_kept_made_run(self):
        elf = self.write("made.elf", made.elf(SYMBOLS, ">"))
        end = "end offence 600 fetch 0000000000003000 block 0000000000003000 changed"
        run = self.trace(list(small_events()), end, uart=SENT)
        self.check_kept("made.svg", self.picture(run, "--elf", elf))

    def test_texts(self):
        elf = self.write("made.elf", made.elf(SYMBOLS))
        run = self.trace(list(small_events()), "end ran 600", uart=SENT)
        texts = self.texts(self.picture(run, "--elf", elf))
        for text in ("A run of 600 cycles", "made.txt: 256 events, end ran 600", "loop<&>", "decrementer",
                     "T 0c00 system call: 5", "I 0900 decrementer: 3",
                     "the UART sent 14 bytes: Hi, <mw> &\\n\\\\\\x00\\xff", "cycles", "events a cycle",
                     "addresses by function, the low ones above; a cell is 4 bytes and 1 cycle"):
            self.assertIn(text, texts)

    def test_run_that_stopped(self):
        for end in ("end offence 600 fetch 0000000000003000 block 0000000000003000 invalidated",
                    "end offence 600 load c000000000003000 page 0000000000003000 0000000000004000"):
            texts = self.texts(self.picture(self.trace(list(small_events()), end, uart=SENT)))
            self.assertIn("A run of 600 cycles", texts)
            self.assertIn("made.txt: 256 events, " + end, texts)

    def test_empty_run(self):
        texts = self.texts(self.picture(self.trace([], "end ran 0")))
        self.assertEqual(texts, [
            "A run of 0 cycles", "made.txt: 0 events, end ran 0", "retired in a cell:",
            "addresses, the low ones above; a cell is 4 bytes and 1 cycle", "nothing retired", "1", "events a cycle",
            "0", "0", "1", "cycles", "the UART sent 0 bytes"])

    def test_addresses_without_symbols(self):
        texts = self.texts(self.picture("data/wide.txt"))
        for address in ("0x0", "0x8", "0x10", "0x18", "0x20", "0x24", "0x2c"):
            self.assertIn(address, texts)

    def test_settings(self):
        picture = self.picture("data/euclid.txt")
        light, dark = picture.split("@media (prefers-color-scheme: dark)")
        for name in ("page", "ink", "level1", "level5", "trap", "interrupt"):
            self.assertIn("--%s: #" % name, light)
            self.assertIn("--%s: #" % name, dark)

    def test_size_of_a_run_that_is_all_over(self):
        source = random.Random(7)
        events = ["R %d %016x 60000000" % (cycle, 4 * min(source.randrange(256), source.randrange(256)))
                  for cycle in range(300_000)]
        picture = self.picture(self.trace(events, "end ran 300000"))
        self.assertLessEqual(len(picture.encode()), LARGEST)
        self.assertGreater(len(picture.encode()), LARGEST // 4)

    def test_64_bit_addresses_all_over(self):
        events = list(made.scattered_events(5_000))
        picture = self.picture(self.trace(events, "end ran 5000"))
        self.assertLessEqual(len(picture.encode()), LARGEST)
        self.assertIn("made.txt: 5,000 events, end ran 5000", self.texts(picture))

    def test_cells_count_each_retirement(self):
        path = os.path.join(self.folder, self.trace(list(made.long_events(30_000)), "end ran 100000"))
        run, cells = trace.Trace(path), grid.Grid(None)
        retired, others = 0, 0
        for batch in run.batches():
            cells.add(batch)
            retired += batch.letters.count(b"R")
            others += len(batch.letters) - batch.letters.count(b"R")
        cells.close(run.ending.cycle)
        self.assertEqual(sum(sum(row.counts) for row in cells.rows.values()), retired)
        self.assertEqual(sum(sum(counts.values()) for counts in cells.marks.values()), others)
        self.assertEqual(sum(cells.events), retired + others)
        self.assertGreater(others, 0)
        self.assertLessEqual(len(cells.rows), grid.ROWS)

    def test_picture_of_the_examples(self):
        program = os.path.join(TOP, "crates", "mw", "out", "mw")
        if not os.access(program, os.X_OK):
            self.skipTest("the program isn't built")
        examples = os.path.join(TOP, "examples")
        run = subprocess.run([program, "run", os.path.join(examples, "text.img"), "--cycles", "4331"],
                             capture_output=True, check=True)
        self.write("text.txt", run.stdout)
        picture = self.picture("text.txt", "--nm", os.path.join(examples, "text.nm"))
        with open(os.path.join(examples, "text.svg"), encoding="utf-8") as file:
            self.assertEqual(picture, file.read())


if __name__ == "__main__":
    unittest.main()
