"""profile: its tables, the statements of words, traps and interrupts, and counts that lie in files."""

import os
import sys
import unittest

import made
from base import MW, TOOLS, ToolTest

sys.path.insert(0, TOOLS)

from mwtracelib import tally, trace  # noqa: E402

EUCLID = """\
18 retired in 18 cycles, 0 of them before the first event

   retired     cycles   share  block of 64 bytes
        18         18 100.00%  0000000000000000

   retired     cycles   share  address, word
         3          3  16.67%  0000000000000008 7ca32212
         3          3  16.67%  000000000000000c 7c832378
         3          3  16.67%  0000000000000010 7ca42b78
         3          3  16.67%  0000000000000014 28240000
         3          3  16.67%  0000000000000018 4082fff0
         1          1   5.56%  0000000000000000 3860042f
         1          1   5.56%  0000000000000004 388001ce
         1          1   5.56%  000000000000001c 48000000

no traps and no interrupts
"""
EUCLID_NAMED = """\
18 retired in 18 cycles, 0 of them before the first event

   retired     cycles   share  function
        15         15  83.33%  loop
         2          2  11.11%  -
         1          1   5.56%  here

   retired     cycles   share  address, word, statement
         3          3  16.67%  0000000000000008 7ca32212          modud r5,r3,r4           loop+0x0
         3          3  16.67%  000000000000000c 7c832378          .long 0x7c832378         loop+0x4
         3          3  16.67%  0000000000000010 7ca42b78          .long 0x7ca42b78         loop+0x8
         3          3  16.67%  0000000000000014 28240000          .long 0x28240000         loop+0xc
         3          3  16.67%  0000000000000018 4082fff0          bc 4,2,0x8               loop+0x10
         1          1   5.56%  0000000000000000 3860042f          addi r3,r0,1071          -
         1          1   5.56%  0000000000000004 388001ce          .long 0x388001ce         -
         1          1   5.56%  000000000000001c 48000000          b 0x1c                   here+0x0

no traps and no interrupts
"""
MADE_EVENTS = [
    "R 2 0000000000000000 4082fff0", "R 3 c000000000000100 48000000", "R 5 c000000000000104 48000102",
    "R 6 0000000000000038 04100000 e4a00038",
    # a system call in which the decrementer's interrupt comes, and both return
    "T 8 0000000000000040 0c00", "R 12 0000000000000c00 3860042f", "I 13 0000000000000c04 0900",
    "R 15 0000000000000900 4c000024", "R 17 0000000000000c04 4c000224",
    # a second one that comes back later, a third that doesn't, and an interrupt that doesn't
    "T 20 0000000000000040 0c00", "R 30 0000000000000c00 4c000024", "T 31 0000000000000040 0c00",
    "I 32 0000000000000c00 0500"]
MADE = """\
8 retired in 40 cycles, 2 of them before the first event

   retired     cycles   share  block of 64 bytes
         0         15  37.50%  0000000000000040
         3         15  37.50%  0000000000000c00
         2          3   7.50%  0000000000000000
         2          3   7.50%  c000000000000100
         1          2   5.00%  0000000000000900

   retired     cycles   share  address, word, statement
         0         15  37.50%  0000000000000040 -
         2         10  25.00%  0000000000000c00 3860042f          addi r3,r0,1071
         1          5  12.50%  0000000000000c04 4c000224          .long 0x4c000224
         1          2   5.00%  0000000000000038 04100000 e4a00038 pld r5,56(0),1
         1          2   5.00%  0000000000000900 4c000024          rfid
         1          2   5.00%  c000000000000100 48000000          b 0xc000000000000100
         1          1   2.50%  0000000000000000 4082fff0          bc 4,2,0xfffffffffffffff0
         1          1   2.50%  c000000000000104 48000102          ba 0x100

     count   returned   shortest       mean    longest  trap or interrupt, in cycles until rfid or hrfid
         1          0          -          -          -  interrupt 0500 external
         1          1          2        2.0          2  interrupt 0900 decrementer
         3          2          9        9.5         10  trap 0c00 system call
no return: trap 0c00 system call at cycle 31
no return: interrupt 0500 external at cycle 32
"""
EMPTY = """\
0 retired in 7 cycles, 7 of them before the first event

   retired     cycles   share  block of 64 bytes

   retired     cycles   share  address, word

no traps and no interrupts
"""
TOP_TWO = """\
18 retired in 18 cycles, 0 of them before the first event

   retired     cycles   share  function
        15         15  83.33%  loop
         2          2  11.11%  -
         1          1   5.56%  (1 more)

   retired     cycles   share  address, word
         3          3  16.67%  0000000000000008 7ca32212 loop+0x0
         3          3  16.67%  000000000000000c 7c832378 loop+0x4

no traps and no interrupts
"""


class ProfileTest(ToolTest):
    """The word profile."""

    def test_example_by_block(self):
        self.check(["profile", "data/euclid.txt"], EUCLID)

    def test_example_by_function_with_statements(self):
        self.write_program("crates/mw/out/mw", MW)
        self.check(["profile", "data/euclid.txt", "--nm", "data/euclid.nm"], EUCLID_NAMED)

    def test_traps_interrupts_and_targets(self):
        self.write_program("crates/mw/out/mw", MW)
        self.check(["profile", self.trace(MADE_EVENTS, "end ran 40")], MADE)

    def test_empty_run(self):
        self.check(["profile", self.trace([], "end ran 7")], EMPTY)

    def test_run_that_stopped(self):
        # the cycle of the offence isn't among those that were run
        for end in ("fetch 0000000000000040 block 0000000000000040 changed",
                    "load 0000000000000040 page 0000000000001000 fault 0300"):
            trace = self.trace(MADE_EVENTS, "end offence 40 " + end)
            self.write_program("crates/mw/out/mw", MW)
            self.check(["profile", trace], MADE)

    def test_few_lines(self):
        self.check(["profile", "data/euclid.txt", "--nm", "data/euclid.nm", "--top", "2"], TOP_TWO)

    def test_by_elf_in_both_orders(self):
        for order in "<>":
            elf = self.write("made.elf", made.elf([("loop", 8, 20, 2, 1, 1), ("here", 28, 0, 0, 0, 1)], order))
            self.check(["profile", "data/euclid.txt", "--elf", elf, "--top", "2"], TOP_TWO)

    def test_returns_that_have_nothing_to_come_back_from(self):
        trace = self.trace(["T 1 0000000000000000 0700", "R 2 0000000000000700 4c000024",
                            "R 3 0000000000000000 4c000024"], "end ran 4")
        _, output, _ = self.run_tool("profile", trace)
        self.assertEqual(output.splitlines()[-2:], [
            "         1          1          1        1.0          1  trap 0700 program",
            "returns without a trap or an interrupt: 1"])
        trace = self.trace(["R 3 0000000000000000 4c000224"], "end ran 4")
        _, output, _ = self.run_tool("profile", trace)
        self.assertEqual(output.splitlines()[-2:], [
            "no traps and no interrupts", "returns without a trap or an interrupt: 1"])

    def test_many_without_a_return(self):
        trace = self.trace(["T %d 0000000000000000 0700" % cycle for cycle in range(8)], "end ran 8")
        _, output, _ = self.run_tool("profile", trace)
        waiting = ["no return: trap 0700 program at cycle %d" % cycle for cycle in range(5)]
        self.assertEqual(output.splitlines()[-6:], [*waiting, "no return: 3 more"])

    def test_program_that_fails(self):
        self.write_program("crates/mw/out/mw", "#!/bin/sh\nexit 7\n")
        program = os.path.join(self.folder, "crates", "mw", "out", "mw")
        self.check_refused(["profile", "data/euclid.txt"], "mwtrace: %s dis ended with status 7" % program)

    def test_counts_in_files_are_the_same(self):
        events = ["R %d %016x %08x" % (3 * number, number * 7919 % 5000 * 4, number) for number in range(20_000)]
        path = os.path.join(self.folder, self.trace(events, "end ran 60000"))
        counts = []
        for most in (100, tally.MOST_IN_MEMORY):
            self.addCleanup(setattr, tally, "MOST_IN_MEMORY", tally.MOST_IN_MEMORY)
            tally.MOST_IN_MEMORY = most
            run, counter = trace.Trace(path), tally.Tally()
            for batch in run.batches():
                counter.add(batch)
            counter.close(run.ending.cycle)
            counts.append([tally.count_of(parts) for parts in counter.counts()])
        self.assertEqual(counts[0], counts[1])
        self.assertEqual(len(counts[0]), 5_000)
        self.assertEqual(sum(count.retired for count in counts[0]), 20_000)
        self.assertEqual(sum(count.cycles for count in counts[0]), 60_000)


if __name__ == "__main__":
    unittest.main()
