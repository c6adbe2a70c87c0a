"""diff: where two runs part."""

import unittest

import made
from base import ToolTest

EVENTS = ["R %d %016x 38600001" % (cycle, 4 * cycle) for cycle in range(20)]
LATER = ["R %d %016x 38600001" % (2 * cycle, 4 * cycle) for cycle in range(20)]
PARTED = """\
A a.txt
B b.txt

first difference: event 9
  R 3 000000000000000c 38600001                   R 3 000000000000000c 38600001
  R 4 0000000000000010 38600001                   R 4 0000000000000010 38600001
  R 5 0000000000000014 38600001                   R 5 0000000000000014 38600001
  R 6 0000000000000018 38600001                   R 6 0000000000000018 38600001
  R 7 000000000000001c 38600001                   R 7 000000000000001c 38600001
! R 8 0000000000000020 38600001                   T 8 0000000000000020 0700
  R 9 0000000000000024 38600001                   R 9 0000000000000024 38600001
! R 10 0000000000000028 38600001                  R 10 0000000000000700 04100000 e4a00038
  R 11 000000000000002c 38600001                  R 11 000000000000002c 38600001
  R 12 0000000000000030 38600001                  R 12 0000000000000030 38600001
  R 13 0000000000000034 38600001                  R 13 0000000000000034 38600001

registers that differ at the end
! r3 0000000000000000                             r3 0000000000000005
! cr 00000000                                     cr 20000000

the UART sent 2 bytes that are the same, then
! 4344                                            45

lines of the dumps that differ, A's above B's
! 0000000000000100 01
                   02
"""
ENDED = """\
A a.txt
B b.txt

first difference: event 19
  R 13 0000000000000034 38600001                  R 13 0000000000000034 38600001
  R 14 0000000000000038 38600001                  R 14 0000000000000038 38600001
  R 15 000000000000003c 38600001                  R 15 000000000000003c 38600001
  R 16 0000000000000040 38600001                  R 16 0000000000000040 38600001
  R 17 0000000000000044 38600001                  R 17 0000000000000044 38600001
! end ran 20                                      R 18 0000000000000048 38600001
!                                                 R 19 000000000000004c 38600001
"""
SAME_BUT_CYCLES = """\
A a.txt
B b.txt

registers that differ at the end
! dec 00000000                                    dec 00000001
"""
ENDS = """\
A a.txt
B b.txt

the ends differ
! end ran 20                                      end offence 20 fetch 0000000000000050 block 0000000000000040 changed
"""


# Two runs, of which one stops where the other goes on.
STOPPED = """\
A a.txt
B b.txt

first difference: event 19
  R 13 0000000000000034 38600001                  R 13 0000000000000034 38600001
  R 14 0000000000000038 38600001                  R 14 0000000000000038 38600001
  R 15 000000000000003c 38600001                  R 15 000000000000003c 38600001
  R 16 0000000000000040 38600001                  R 16 0000000000000040 38600001
  R 17 0000000000000044 38600001                  R 17 0000000000000044 38600001
! R 18 0000000000000048 38600001                  end offence 18 fetch 0000000000000048 block 0000000000000040 changed
! R 19 000000000000004c 38600001

the ends differ
! end ran 20                                      end offence 18 fetch 0000000000000048 block 0000000000000040 changed
"""
OFFENCE = "end offence %d fetch 0000000000000050 block 0000000000000040 %s"


class DiffTest(ToolTest):
    """The word diff."""

    def pair(self, first, second):
        """Writes two runs."""
        self.write("a.txt", first)
        self.write("b.txt", second)
        return ["diff", "a.txt", "b.txt"]

    def test_same_runs(self):
        self.check(["diff", "data/reserve.txt", "data/reserve.txt"], "")

    def test_all_parts(self):
        others = list(EVENTS)
        others[8], others[10] = "T 8 0000000000000020 0700", "R 10 0000000000000700 04100000 e4a00038"
        words = self.pair(
            made.trace(EVENTS, "end ran 20", uart="41424344", dump=["m 0000000000000100 01"]),
            made.trace(others, "end ran 20", uart="414245", changed={"r3": 5, "cr": 0x20000000},
                       dump=["m 0000000000000100 02"]))
        self.check(words, PARTED, 1)

    def test_run_that_ends_before(self):
        self.check(self.pair(made.trace(EVENTS[:18], "end ran 20"), made.trace(EVENTS, "end ran 20")), ENDED, 1)

    def test_cycles_that_do_not_count(self):
        words = self.pair(made.trace(EVENTS, "end ran 20"), made.trace(LATER, "end ran 40"))
        self.check([*words, "--ignore-cycles"], "")
        status, output, _ = self.run_tool(*words)
        self.assertEqual((status, output.splitlines()[3]), (1, "first difference: event 2"))
        self.assertIn("\nthe ends differ\n! end ran 20", output)

    def test_register_where_cycles_do_not_count(self):
        words = self.pair(made.trace(EVENTS, "end ran 20"), made.trace(LATER, "end ran 40", changed={"dec": 1}))
        self.check([*words, "--ignore-cycles"], SAME_BUT_CYCLES, 1)

    def test_event_where_cycles_do_not_count(self):
        others = list(LATER)
        others[15] = "R 30 000000000000003c 38600002"
        words = self.pair(made.trace(EVENTS, "end ran 20"), made.trace(others, "end ran 40"))
        status, output, _ = self.run_tool(*words, "--ignore-cycles")
        lines = output.splitlines()
        self.assertEqual((status, lines[3]), (1, "first difference: event 16"))
        marks = [line[0] for line in lines[4:] if line]
        self.assertEqual(marks, [" "] * 5 + ["!"] + [" "] * 4)

    def test_ends(self):
        end = "end offence 20 fetch 0000000000000050 block 0000000000000040 changed"
        self.check(self.pair(made.trace(EVENTS, "end ran 20"), made.trace(EVENTS, end)), ENDS, 1)

    def test_run_that_stops(self):
        end = "end offence 18 fetch 0000000000000048 block 0000000000000040 changed"
        self.check(self.pair(made.trace(EVENTS, "end ran 20"), made.trace(EVENTS[:18], end)), STOPPED, 1)

    def test_two_runs_that_stop(self):
        words = self.pair(made.trace(EVENTS, OFFENCE % (20, "changed")), made.trace(LATER, OFFENCE % (40, "changed")))
        self.check([*words, "--ignore-cycles"], "")
        self.assertEqual(self.run_tool(*words)[0], 1)
        words = self.pair(made.trace(EVENTS, OFFENCE % (20, "changed")),
                          made.trace(LATER, OFFENCE % (40, "invalidated")))
        status, output, _ = self.run_tool(*words, "--ignore-cycles")
        ends = ["the ends differ", "! %s  %s" % (OFFENCE % (20, "changed"), OFFENCE % (40, "invalidated"))]
        self.assertEqual((status, output.splitlines()[3:]), (1, ends))

    def test_empty_runs(self):
        self.check(self.pair(made.trace([], "end ran 0"), made.trace([], "end ran 0")), "")

    def test_dumps_of_other_ranges(self):
        line, other = "m 0000000000000100 " + "00" * 32, "m 0000000000000200 01"
        words = self.pair(made.trace([], "end ran 0", dump=[line, "m 0000000000000120 02"]),
                          made.trace([], "end ran 0", dump=[other]))
        _, output, _ = self.run_tool(*words)
        self.assertEqual(output.splitlines()[4:], [
            "! 0000000000000100 " + "00" * 32, "                   -", "! 0000000000000120 02", "                   -",
            "! 0000000000000200 -", "                   01"])

    def test_long_difference_of_dumps_and_bytes(self):
        dumps = [["m %016x %s" % (32 * number, content * 32) for number in range(20)] for content in ("00", "01")]
        words = self.pair(made.trace([], "end ran 0", uart="41" * 100, dump=dumps[0]),
                          made.trace([], "end ran 0", dump=dumps[1]))
        _, output, _ = self.run_tool(*words)
        self.assertIn("! %s.. (100 bytes)%s-\n" % ("41" * 16, " " * 2), output)
        self.assertEqual(output.splitlines()[-1], "  (4 more)")

    def test_parting_far_behind_the_first_batch(self):
        events = ["R %d %016x 38600001" % (cycle, 4 * cycle) for cycle in range(20_000)]
        others = list(events)
        others[17_000] = "R 17000 0000000000000000 38600001"
        self.write("b.txt", made.trace(others, "end ran 20000"))
        status, output, errors = self.run_tool("diff", "-", "b.txt", given=made.trace(events, "end ran 20000").encode())
        self.assertEqual((status, errors), (1, ""))
        self.assertEqual(output.splitlines()[0], "A standard input")
        self.assertEqual(output.splitlines()[3], "first difference: event 17001")
        self.assertEqual(len(output.splitlines()), 15)

    def test_refusals(self):
        self.check_refused(["diff", "-", "-"], "mwtrace: standard input can be one run alone")
        words = self.pair(made.trace(EVENTS, "end ran 20"), made.trace(EVENTS, "end ran 20").replace("lr", "lx"))
        self.check_refused(words, "mwtrace: b.txt:56: not register lr with its 16 digits")


if __name__ == "__main__":
    unittest.main()
