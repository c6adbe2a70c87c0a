"""summary, and how it is read from a pipe."""

import os
import subprocess
import unittest

import made
from base import TOP, ToolTest

EUCLID = """\
events                   18
  retired                18
  of them prefixed       0
  traps                  0
  interrupts             0
cycles                   18
events a cycle           1.0000
longest stretch without  none
addresses                0000000000000000 to 000000000000001c
bytes the UART sent      0
bytes of the dump        0
the end                  ran 18
"""
RESERVE = """\
events                   8
  retired                8
  of them prefixed       0
  traps                  0
  interrupts             0
cycles                   8
events a cycle           1.0000
longest stretch without  none
addresses                0000000000000000 to 000000000000001c
bytes the UART sent      0
bytes of the dump        16
the end                  ran 8
"""
WIDE = """\
events                   7
  retired                7
  of them prefixed       5
  traps                  0
  interrupts             0
cycles                   7
events a cycle           1.0000
longest stretch without  none
addresses                0000000000000000 to 000000000000002c
bytes the UART sent      0
bytes of the dump        0
the end                  ran 7
"""
MADE = """\
events                   4
  retired                2
  of them prefixed       1
  traps                  1
  interrupts             1
cycles                   40
events a cycle           0.1000
longest stretch without  19 cycles, from cycle 21 to 39
addresses                0000000000000000 to ffffffffffffffc0
bytes the UART sent      3
bytes of the dump        0
the end                  offence 40 load c000000000000000 page 0000000000001000 fault 0300
  stopped before         the load at c000000000000000, in cycle 40
  because                its page is kept at 0000000000001000, and by the tables it has a fault, 0300 data storage
"""
STOPPED = """\
events                   12
  retired                12
  of them prefixed       0
  traps                  0
  interrupts             0
cycles                   12
events a cycle           1.0000
longest stretch without  none
addresses                0000000000000000 to 0000000000000044
bytes the UART sent      0
bytes of the dump        0
the end                  offence 12 fetch 0000000000000040 block 0000000000000040 changed
  stopped before         the fetch at 0000000000000040, in cycle 12
  because                block 0000000000000040 was stored to, and no icbi of it came behind
"""
EMPTY = """\
events                   0
  retired                0
  of them prefixed       0
  traps                  0
  interrupts             0
cycles                   0
events a cycle           none
longest stretch without  none
addresses                none
bytes the UART sent      0
bytes of the dump        0
the end                  ran 0
"""
MADE_EVENTS = [
    "R 5 0000000000000000 38600001", "T 6 ffffffffffffffc0 0c00", "I 20 ffffffffffffffc0 0900",
    "R 20 0000000000000900 04100000 e4a00038"]


class SummaryTest(ToolTest):
    """The word summary."""

    def test_examples(self):
        for name, text in (("euclid", EUCLID), ("reserve", RESERVE), ("wide", WIDE)):
            self.check(["summary", "data/%s.txt" % name], text)

    def test_offence_and_64_bit_addresses(self):
        end = "end offence 40 load c000000000000000 page 0000000000001000 fault 0300"
        self.check(["summary", self.trace(MADE_EVENTS, end, uart="41420a")], MADE)

    def test_empty_run(self):
        self.check(["summary", self.trace([], "end ran 0")], EMPTY)

    def test_stretch_before_the_first_event(self):
        _, output, _ = self.run_tool("summary", self.trace(["R 9 0000000000000000 38600001"], "end ran 12"))
        self.assertIn("longest stretch without  9 cycles, from cycle 0 to 8\n", output)

    def test_run_without_an_event(self):
        _, output, _ = self.run_tool("summary", self.trace([], "end ran 12"))
        self.assertIn("longest stretch without  12 cycles, from cycle 0 to 11\n", output)

    def test_each_end(self):
        ends = [
            ("ran 9", None, None),
            ("offence 9 fetch 0000000000000000 block 0000000000000000 changed", "fetch at 0000000000000000",
             "block 0000000000000000 was stored to, and no icbi of it came behind"),
            ("offence 9 fetch c000000000003008 block 0000000000003000 invalidated", "fetch at c000000000003008",
             "block 0000000000003000 was stored to, and nothing synchronized behind its icbi"),
            ("offence 9 load 0000000000000008 page 0000000000000000 0000000000001000", "load at 0000000000000008",
             "its page is kept at 0000000000000000, and by the tables it is at 0000000000001000"),
            ("offence 9 store 0000000000000008 page 0000000000000000 fault 0380", "store at 0000000000000008",
             "its page is kept at 0000000000000000, and by the tables it has a fault, 0380 data segment"),
            ("offence 9 fetch 0000000000000008 page 0000000000000000 fault 0abc", "fetch at 0000000000000008",
             "its page is kept at 0000000000000000, and by the tables it has a fault, 0abc")]
        for end, access, why in ends:
            expected = ["the end                  " + end]
            if access is not None:
                expected += ["  stopped before         the %s, in cycle 9" % access, "  because                " + why]
            status, output, errors = self.run_tool("summary", self.trace([], "end " + end))
            self.assertEqual((status, output.splitlines()[11:], errors), (0, expected, ""))

    def test_many_batches(self):
        events = ["R %d %016x 38600001" % (2 * number, 4 * number) for number in range(10_000)]
        _, output, _ = self.run_tool("summary", self.trace(events, "end ran 20000"))
        self.assertIn("  retired                10000\n", output)
        self.assertIn("events a cycle           0.5000\n", output)
        self.assertIn("longest stretch without  1 cycle, which is cycle 1\n", output)

    def test_standard_input(self):
        given = made.trace(MADE_EVENTS[:2], "end ran 40").encode()
        status, output, errors = self.run_tool("summary", "-", given=given)
        self.assertEqual((status, output.splitlines()[0], errors), (0, "events                   2", ""))

    def test_pipe_of_the_program(self):
        program = os.path.join(TOP, "crates", "mw", "out", "mw")
        if not os.access(program, os.X_OK):
            self.skipTest("the program isn't built")
        image = os.path.join(TOP, "examples", "euclid.img")
        with subprocess.Popen([program, "run", image, "--cycles", "18"], stdout=subprocess.PIPE) as run:
            output = subprocess.run([os.path.join(self.folder, "tools", "mwtrace"), "summary", "-"], stdin=run.stdout,
                                    capture_output=True, check=False)
        self.assertEqual((output.returncode, output.stdout.decode(), output.stderr), (0, EUCLID, b""))

    def test_pipe_of_a_run_that_stops(self):
        program = os.path.join(TOP, "crates", "mw", "out", "mw")
        if not os.access(program, os.X_OK):
            self.skipTest("the program isn't built")
        image = os.path.join(TOP, "examples", "patch_unsynced.img")
        run = subprocess.run([program, "run", image, "--cycles", "16"], capture_output=True, check=False)
        self.assertEqual((run.returncode, run.stderr), (1, b""))
        self.assertEqual(self.run_tool("summary", "-", given=run.stdout), (0, STOPPED, ""))


if __name__ == "__main__":
    unittest.main()
