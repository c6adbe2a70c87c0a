"""names: symbols of ELF files and of nm's text, and the lines of the source."""

import os
import unittest

import made
from base import TOP, ToolTest

FUNCTION, OBJECT, SECTION, FILE = 2, 1, 3, 4
GLOBAL, LOCAL = 1, 0
ABSOLUTE = 0xFFF1
SYMBOLS = [
    ("file.c", 0, 0, FILE, LOCAL, ABSOLUTE), ("", 0x100, 0, SECTION, LOCAL, 1),
    ("stack_size", 0x104, 0, 0, GLOBAL, ABSOLUTE), ("outside", 0, 0, 0, GLOBAL, 0),
    ("local", 0x100, 0, 0, LOCAL, 1), ("main", 0x100, 0x10, FUNCTION, GLOBAL, 1),
    ("kernel", 0xC000000000000000, 0, FUNCTION, LOCAL, 1)]
EVENTS = [
    "R 0 00000000000000fc 38600001", "R 1 0000000000000100 38600001", "R 2 0000000000000104 04100000 e4a00038",
    "R 3 0000000000000110 38600001", "T 4 000000000000010c 0c00", "I 5 c000000000000abc 0900"]
# The ends of runs that stopped, and the names of their accesses.
OFFENCES = [
    ("end offence 6 fetch 0000000000000104 block 0000000000000100 changed", " main+0x4"),
    ("end offence 6 fetch c000000000000104 block 0000000000000100 invalidated", " kernel+0x104"),
    ("end offence 6 fetch 0000000000000110 block 0000000000000100 changed", " -"),
    ("end offence 6 load 0000000000000108 page 0000000000001000 0000000000002000", " main+0x8"),
    ("end offence 6 store 00000000000000f8 page 0000000000001000 fault 0300", " -")]
NAMED = [" -", " main+0x0", " main+0x4", " -", " main+0xc", " kernel+0xabc"]
# A stand-in of addr2line: the line of an address is its number divided by 4.
ADDR2LINE = r'''#!/usr/bin/env python3
import sys
assert sys.argv[1:3] == ["-s", "-e"]
for line in sys.stdin:
    address = int(line, 16)
    print("??:0" if address > 2**32 else "main.c:%d (discriminator 2)" % (address // 4), flush=True)
'''
EUCLID = """\
R 0 0000000000000000 3860042f -
R 1 0000000000000004 388001ce -
R 2 0000000000000008 7ca32212 loop+0x0
R 3 000000000000000c 7c832378 loop+0x4
R 4 0000000000000010 7ca42b78 loop+0x8
R 5 0000000000000014 28240000 loop+0xc
R 6 0000000000000018 4082fff0 loop+0x10
R 7 0000000000000008 7ca32212 loop+0x0
R 8 000000000000000c 7c832378 loop+0x4
R 9 0000000000000010 7ca42b78 loop+0x8
R 10 0000000000000014 28240000 loop+0xc
R 11 0000000000000018 4082fff0 loop+0x10
R 12 0000000000000008 7ca32212 loop+0x0
R 13 000000000000000c 7c832378 loop+0x4
R 14 0000000000000010 7ca42b78 loop+0x8
R 15 0000000000000014 28240000 loop+0xc
R 16 0000000000000018 4082fff0 loop+0x10
R 17 000000000000001c 48000000 here+0x0
end ran 18
"""


def behind(names, end="end ran 6"):
    """The made run with these texts behind its events, and this end line."""
    return made.trace([event + name for event, name in zip(EVENTS, names)], end)


def labels_of(source):
    """The labels of a source in which each instruction has one word, and all data are single bytes."""
    labels, address = [], 0
    for line in source.splitlines():
        statement = line.partition("#")[0]
        if ":" in statement:
            label, _, statement = statement.partition(":")
            labels.append((label.strip(), address))
        if ".org" in statement:
            address = int(statement.split()[1], 0)
        elif statement.strip():
            address += len(statement.split(",")) if ".byte" in statement else 4
    return labels


class NamesTest(ToolTest):
    """The word names."""

    def test_example(self):
        status, output, errors = self.run_tool("names", "data/euclid.txt", "--nm", "data/euclid.nm")
        self.assertEqual((status, errors), (0, ""))
        with open(os.path.join(self.folder, "data", "euclid.txt"), encoding="ascii") as file:
            rest = file.read().partition("end ran 18\n")[2]
        self.assertEqual(output, EUCLID + rest)

    def test_labels_of_the_examples_are_those_of_their_sources(self):
        for source, names in (("text.s", "examples/text.nm"), ("patch.s", "examples/patch.nm"),
                              ("patch_unsynced.s", "examples/patch.nm"), ("euclid.s", "tools/tests/data/euclid.nm")):
            with open(os.path.join(TOP, "examples", source), encoding="ascii") as file:
                labels = labels_of(file.read())
            with open(os.path.join(TOP, names), encoding="ascii") as file:
                self.assertEqual(file.read(), "".join("%016x t %s\n" % (at, label) for label, at in labels))

    def test_both_orders_of_elf(self):
        trace = self.trace(EVENTS, "end ran 6")
        for order in "<>":
            elf = self.write("made.elf", made.elf(SYMBOLS, order))
            self.check(["names", trace, "--elf", elf], behind(NAMED))

    def test_nm_with_sizes(self):
        text = "0000000000000100 0000000000000010 T main\n                 U outside\n0000000000000104 A stack_size\n"
        text += "0000000000000100 t local\nc000000000000000 t kernel\n"
        nm = self.write("made.nm", text)
        self.check(["names", self.trace(EVENTS, "end ran 6"), "--nm", nm], behind(NAMED))

    def test_lines_of_the_source(self):
        self.write_program("bin/powerpc64le-linux-gnu-addr2line", ADDR2LINE)
        elf = self.write("made.elf", made.elf(SYMBOLS, extra_sections=[(".debug_line", b"\0")]))
        trace = self.trace(EVENTS, "end ran 6")
        lines = [" main.c:63", " main.c:64", " main.c:65", " main.c:68", " main.c:67", ""]
        status, output, errors = self.run_tool("names", trace, "--elf", elf, path=os.path.join(self.folder, "bin"))
        self.assertEqual((status, output, errors), (0, behind([a + b for a, b in zip(NAMED, lines)]), ""))

    def test_offence(self):
        elf = self.write("made.elf", made.elf(SYMBOLS))
        for end, name in OFFENCES:
            self.check(["names", self.trace(EVENTS, end), "--elf", elf], behind(NAMED, end + name))

    def test_offence_with_the_line_of_the_source(self):
        self.write_program("bin/powerpc64le-linux-gnu-addr2line", ADDR2LINE)
        elf = self.write("made.elf", made.elf(SYMBOLS, extra_sections=[(".debug_line", b"\0")]))
        lines = [" main.c:65", "", " main.c:68", " main.c:66", " main.c:62"]
        for (end, name), line in zip(OFFENCES, lines):
            status, output, errors = self.run_tool("names", self.trace([], end), "--elf", elf,
                                                   path=os.path.join(self.folder, "bin"))
            self.assertEqual((status, output, errors), (0, made.trace([], end + name + line), ""))

    def test_program_that_knows_no_lines(self):
        self.write_program("bin/powerpc64le-linux-gnu-addr2line", "#!/bin/sh\nexit 1\n")
        elf = self.write("made.elf", made.elf(SYMBOLS, extra_sections=[(".debug_line", b"\0")]))
        trace = self.trace(EVENTS, "end ran 6")
        status, output, errors = self.run_tool("names", trace, "--elf", elf, path=os.path.join(self.folder, "bin"))
        self.assertEqual((status, output, errors), (0, behind(NAMED), ""))

    def test_many_batches(self):
        events = ["R %d %016x 38600001" % (number, 4 * (number % 3)) for number in range(20_000)]
        nm = self.write("made.nm", "0000000000000000 T start\n0000000000000008 T last\n")
        names = ["start+0x0", "start+0x4", "last+0x0"]
        named = [event + " " + names[number % 3] for number, event in enumerate(events)]
        self.check(["names", self.trace(events, "end ran 20000"), "--nm", nm], made.trace(named, "end ran 20000"))

    def test_empty_run(self):
        nm = self.write("made.nm", "0000000000000000 T start\n")
        self.check(["names", self.trace([], "end ran 0"), "--nm", nm], made.trace([], "end ran 0"))

    def test_refused_elf_files(self):
        trace = self.trace(EVENTS, "end ran 6")
        whole = made.elf(SYMBOLS)
        cases = [
            (b"R 0", "not an ELF file"), (whole[:4] + b"\1" + whole[5:], "not a 64-bit ELF file"),
            (whole[:40], "the ELF file is cut"), (whole[:-10], "the ELF file is cut"), (made.elf([]), "no symbols"),
            (made.elf(SYMBOLS, machine=62), "the ELF file isn't for 64-bit Power")]
        for content, why in cases:
            elf = self.write("made.elf", content)
            self.check_refused(["names", trace, "--elf", elf], "mwtrace: made.elf: " + why)
        why = "mwtrace: cannot read absent: No such file or directory"
        self.check_refused(["names", trace, "--elf", "absent"], why)

    def test_refused_nm_texts(self):
        trace = self.trace(EVENTS, "end ran 6")
        cases = [
            ("", "made.nm: no symbols"), ("0000000000000100 T\n", "made.nm:1: not a line that nm prints"),
            ("0000000000000100 T a\n01X0 T b\n", "made.nm:2: not a line that nm prints"),
            ("0000000000000100 TT a\n", "made.nm:1: not a line that nm prints")]
        for content, why in cases:
            nm = self.write("made.nm", content)
            self.check_refused(["names", trace, "--nm", nm], "mwtrace: " + why)


if __name__ == "__main__":
    unittest.main()
