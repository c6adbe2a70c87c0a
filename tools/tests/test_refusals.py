"""Texts that aren't a printed run, and words that aren't understood: status 2 and one line."""

import os
import sys
import unittest

import made
from base import TOOLS, ToolTest

sys.path.insert(0, TOOLS)

from mwtracelib import trace  # noqa: E402

EVENTS = ["R 0 0000000000000000 38600001", "R 1 0000000000000004 38600001", "R 2 0000000000000008 38600001"]
WHOLE = made.trace(EVENTS, "end ran 3", uart="41", dump=["m 0000000000000000 " + "00" * 32, "m 0000000000000020 00"])
UNKNOWN = "not a line of a printed run"
# In place of the second line, a line that no run has.
BAD_LINES = [
    "", "hello", "R", "R 1 0000000000000004", "R 1 0000000000000004 ", "R  1 0000000000000004 38600001",
    "R 01 0000000000000004 38600001", "R -1 0000000000000004 38600001", "R +1 0000000000000004 38600001",
    "R 1_0 0000000000000004 38600001", "R 1 000000000000004 38600001", "R 1 000000000000000G 38600001",
    "R 1 00000000000000AB 38600001", "R 1 0000000000000004 3860000", "R 1 0000000000000004 0700",
    "R 1 0000000000000004 04100000e4a00038", "R 1 0000000000000004 04100000 e4a0003", "T 1 0000000000000004 38600001",
    "T 1 0000000000000004 070", "I 1 0000000000000004 07000", "X 1 0000000000000004 38600001",
    "R 18446744073709551616 0000000000000004 38600001", "R %s 0000000000000004 38600001" % ("9" * 5000),
    "R 1 0000000000000004 38600001 ", "R 1 0000000000000004 38600001\r", "end ran", "end ran 03", "end ran 3 4",
    "end walked 3", "end offence 3 fetch 0000000000003000 block 0000000000003000 clean",
    "end offence 3 jump 0000000000003000 page",
    "end offence 3 load 0000000000003000 page 0000000000003000 fault 300",
    "end offence 3 load 0000000000003000 page 0000000000003000 0000000000003000 0", "end offence", "end offence 3",
    "end offence 3 fetch 0000000000003000 block 0000000000003000",
    "end offence 3 fetch 0000000000003000 block 0000000000003000 changed 0",
    "end offence 03 fetch 0000000000003000 block 0000000000003000 changed",
    "end offence 3 fetch 000000000003000 block 0000000000003000 changed",
    "end offence 3 fetch 0000000000003000 block 000000000003000 changed",
    "end offence 3 fetch 0000000000003000  block 0000000000003000 changed",
    "end offence 3 fetch 0000000000003000 page 0000000000003000 fault",
    "end offence 3 fetch 0000000000003000 page 0000000000003000 fault 0400 0",
    "end offence 3 fetch 0000000000003000 page 0000000000003000 changed"]
# A change of the whole text, and what is told of it.
CHANGES = [
    ("R 2", "R 0", "made.txt:3: cycle 0 behind cycle 1"),
    ("end ran 3", "end ran 2", "made.txt:4: an end at cycle 2 behind an event of cycle 2"),
    # the cycle in which a run stopped has no event
    ("end ran 3", "end offence 2 fetch 000000000000000c block 0000000000000000 changed",
     "made.txt:4: an end at cycle 2 behind an event of cycle 2"),
    ("end ran 3", "end offence 1 fetch 000000000000000c block 0000000000000000 changed",
     "made.txt:4: an end at cycle 1 behind an event of cycle 2"),
    ("r7 ", "r8 ", "made.txt:12: not register r7 with its 16 digits"),
    ("cr 0", "cr ", "made.txt:37: not register cr with its 8 digits"),
    ("uart 41", "uart 4", "made.txt:59: not the bytes of the UART"),
    ("uart 41", "uart", "made.txt:59: not the bytes of the UART"),
    ("uart 41\n", "", "made.txt:59: not the bytes of the UART"),
    ("m 0000000000000020", "m 0000000000000040",
     "made.txt:61: a line of a dump that doesn't continue the one before"),
    ("m 0000000000000020", "m 000000000000002", "made.txt:61: not the address of a line of a dump"),
    ("m 0000000000000020 00", "m 0000000000000020 0x", "made.txt:61: not a line of a dump"),
    ("m 0000000000000020 00", "m 0000000000000020 " + "00" * 33, "made.txt:61: not a line of a dump"),
    ("m 0000000000000020 00", EVENTS[0], "made.txt:61: not a line of a dump")]
WORDS = ("summary", "profile", "names", "diff", "picture")


class RefusalTest(ToolTest):
    """What each word refuses."""

    def words(self, word):
        """All words of a command that reads the made text."""
        rest = {"names": ["--nm", "data/euclid.nm"], "diff": ["made.txt"], "picture": ["-o", "made.svg"]}
        return [word, "made.txt", *rest.get(word, [])]

    def refuse(self, text, line, words=("summary",)):
        """Checks that this text is refused by this line."""
        self.write("made.txt", text)
        for word in words:
            self.check_refused(self.words(word), "mwtrace: " + line)

    def test_whole_text_is_none_of_them(self):
        self.write("made.txt", WHOLE)
        for word in WORDS:
            status, _, errors = self.run_tool(*self.words(word))
            self.assertEqual((status, errors), (0, ""))

    def check_read(self, text, line):
        """Checks that the reader refuses this text by this line, without a process of its own."""
        path = os.path.join(self.folder, self.write("made.txt", text))
        with self.assertRaises(trace.BadInput) as refused:
            list(trace.Trace(path).batches())
        self.assertEqual(str(refused.exception), os.path.join(self.folder, line))

    def test_unknown_lines(self):
        lines = WHOLE.split("\n")
        for line in BAD_LINES:
            self.check_read("\n".join([lines[0], line, *lines[2:]]), "made.txt:2: " + UNKNOWN)

    def test_each_word_refuses_an_unknown_line(self):
        self.refuse(WHOLE.replace("R 1", "Q 1"), "made.txt:2: " + UNKNOWN, WORDS)

    def test_each_word_refuses_a_cut_last_line(self):
        why = "made.txt:61: the last line is cut: it has no line feed"
        self.refuse(WHOLE[:-1], why, WORDS)

    def test_each_word_refuses_a_text_without_an_end(self):
        self.refuse(WHOLE[:WHOLE.index("end")], "made.txt:4: the text ends before the end line of its events", WORDS)
        self.refuse("", "made.txt:1: the text ends before the end line of its events", WORDS)

    def test_text_that_ends_in_the_registers(self):
        self.refuse(WHOLE[:WHOLE.index("r9 ")], "made.txt:14: the text ends where register r9 is told")
        self.refuse(WHOLE[:WHOLE.index("uart")], "made.txt:59: the text ends where the bytes of the UART are told")

    def test_changes(self):
        for old, new, line in CHANGES:
            self.assertIn(old, WHOLE)
            self.check_read(WHOLE.replace(old, new, 1), line)

    def test_line_far_behind_the_first_batch(self):
        events = ["R %d %016x 38600001" % (cycle, 4 * cycle) for cycle in range(20_000)]
        events[15_000] = "R 15000 0000000000000000 3860000"
        self.refuse(made.trace(events, "end ran 20000"), "made.txt:15001: " + UNKNOWN)
        events[15_000] = "R 0 0000000000000000 38600001"
        self.refuse(made.trace(events, "end ran 20000"), "made.txt:15001: cycle 0 behind cycle 14999")

    def test_long_line(self):
        self.refuse("R 1" + " " * 2_000_000, "made.txt:1: a line of more than 1048576 bytes")

    def test_long_dump(self):
        lines = ["m %016x %s" % (32 * number, "00" * 32) for number in range(2_049)]
        self.refuse(made.trace([], "end ran 0", dump=lines), "made.txt:2105: more lines than a printed run has")

    def test_absent_and_unwritable_files(self):
        self.check_refused(["summary", "absent"], "mwtrace: cannot read absent: No such file or directory")
        self.check_refused(["summary", "data"], "mwtrace: cannot read data: Is a directory")
        self.write("made.txt", WHOLE)
        self.check_refused(["picture", "made.txt", "-o", "absent/made.svg"],
                           "mwtrace: cannot write absent/made.svg: No such file or directory")

    def test_words(self):
        for words in ([], ["look"], ["summary"], ["names", "made.txt"], ["summary", "a", "b"], ["picture", "made.txt"],
                      ["profile", "made.txt", "--top", "0"], ["profile", "made.txt", "--elf", "a", "--nm", "b"]):
            status, output, errors = self.run_tool(*words)
            self.assertEqual((status, output, errors.count("\n")), (2, "", 1))
            self.assertTrue(errors.startswith("mwtrace"))

    def test_help_shows_an_example_of_each(self):
        status, output, _ = self.run_tool("--help")
        self.assertEqual(status, 0)
        self.assertIn("bin/mw run examples/text.img --cycles 4331 | tools/mwtrace summary -", output)
        for word in WORDS:
            status, output, _ = self.run_tool(word, "--help")
            self.assertEqual(status, 0)
            self.assertRegex(output, r"Example:\n  .*tools/mwtrace " + word)


if __name__ == "__main__":
    unittest.main()
