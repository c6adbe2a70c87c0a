"""Worked runs of the proved program: sources of data/worked, assembled and run, beside what is worked out of each."""

import os
import re
import subprocess
import sys
import tempfile
import unittest

TOP = os.path.dirname(os.path.dirname(os.path.dirname(os.path.abspath(__file__))))
PROGRAM = os.environ.get("MW", os.path.join(TOP, "crates", "mw", "out", "mw"))
WORKED = os.path.join(TOP, "data", "worked")
LOOP = "R 0000000000000004 48000000"

# A source, the words behind its image, the status, events by their places (the first is 0) without their cycles, and lines
# that the text has. The place "others" stands for all events but the first.
ROWS = [
    ("empty", "--cycles 0", 0, {}, ["end ran 0", "msr 9000000000001001", "dec 7fffffff", "uart -"]
     + ["r%d 0000000000000000" % number for number in range(32)]
     + [name + " 0000000000000000" for name in "xer lr ctr tar cia srr0 srr1 hsrr0 hsrr1 dar sprg0 sprg1 sprg2 sprg3 "
        "hsprg0 hsprg1 prtbl".split()] + ["cr 00000000", "dsisr 00000000", "pidr 00000000"]),
    ("five", "--cycles 20000", 0, {0: "R 0000000000000000 38600005", "others": LOOP},
     ["end ran 20000", "r3 0000000000000005", "cia 0000000000000004", "dec 7fffb1df"]),
    ("zeros", "--cycles 0", 0, {}, ["end ran 0", "r3 0000000000000000"]),
    ("cut_word", "--cycles 20000", 0, {0: "T 0000000000000000 0700", "others": "T 0000000000000700 0700"},
     ["srr0 0000000000000700", "srr1 9000000000081001"]),
    ("cut_prefix", "--cycles 200000", 0, {15: "T 000000000000003c 0600"},
     ["r3 0000000000000000", "srr0 000000000000003c", "srr1 9000000030001001"]),
    ("wide", "--cycles 20000", 0, {0: "R 0000000000000000 06120000 38600000"}, ["r3 fffffffe00000000"]),
    ("quotients", "--cycles 100000", 0, {},
     ["r3 8000000000000000", "r5 0000000000000000", "r7 0000000000000000", "xer 00000000c0080000"]),
    ("faulting_page", "--cycles 100000 --dump 24568:16", 0, {9: "T 0000000000000024 0300"},
     ["dar 0000000000006000", "dsisr 42000000", "srr0 0000000000000024", "srr1 9000000000001011",
      "m 0000000000005ff8 " + "00" * 16]),
    ("no_float", "--cycles 150000", 0, {9: "T 0000000000000024 0800"}, ["srr1 900000000000d031"]),
    ("privileged", "--cycles 150000", 0, {9: "T 0000000000000024 0700"}, ["srr1 900000000004d031"]),
    ("reserved", "--cycles 100000 --dump 4096:16", 0, {},
     ["r6 0000000020000000", "r7 0000000000000000", "m 0000000000001000 07000000000000000010000000000000"]),
    ("changed_code", "--cycles 40000", 1, {0: "R 0000000000000000 3c606000", 1: "R 0000000000000004 90600008"},
     ["end offence fetch 0000000000000008 block 0000000000000000 changed", "r5 0000000000000000"]),
    ("code_made_known", "--cycles 120000", 0, {}, ["r5 0000000000000002"]),
    ("moved_page", "--cycles 200000", 1, {},
     ["end offence load 0000000000005000 page 0000000000005000 0000000000007000", "r7 0000000000000055",
      "cia 000000000000003c"]),
    ("moved_page_known", "--cycles 200000", 0, {}, ["end ran 200000", "r7 0000000000000077"]),
    ("unmarked_page", "--cycles 200000 --dump 20480:8", 0, {9: "T 0000000000000024 0300", 15: "R 0000000000000024 f8c50000"},
     ["dsisr 02040000", "dar 0000000000005000", "srr0 0000000000000024", "m 0000000000005000 ffffffffffffffff"]),
    ("small_table", "--cycles 100000", 0, {}, ["dsisr 00080000"]),
    ("endless_tree", "--cycles 100000", 0, {}, ["dsisr 00080000"]),
    ("queue_of_16", "--cycles 600000 --script queue_of_16.script", 0, {},
     ["r4 0000000000000006", "r6 0000000000000078", "r7 000000000000000f", "r9 0000000000000003", "r10 0000000000000000"]),
    ("decrementer", "--cycles 100000", 0, {5: "I 0000000000000014 0900"}, ["srr1 9000000000009001"]),
    ("external", "--cycles 200000", 0, {15: "R 000000000000003c 7c810164", 16: "I 0000000000000040 0500"}, []),
    ("accepted", "--cycles 200000", 0, {},
     ["r12 00000000ff000010", "r13 0000000005000000", "r14 00000000ff000000"]),
    ("console", "--cycles 600000 --script console.script", 0, {}, ["uart 48656c6c6f20576f726c640a6162630d0a"]),
]


def call(words, out=subprocess.PIPE):
    """The status of a call in the folder of the sources, and what it wrote to its two streams."""
    done = subprocess.run([PROGRAM] + words, cwd=WORKED, stdout=out, stderr=subprocess.PIPE, check=False)
    return done.returncode, done.stdout, done.stderr.decode()


def without_cycles(text):
    """The events of a text and its other lines, without the cycles of the events and of an offence."""
    lines = text.decode("ascii").splitlines()
    events = [re.sub(r"^([RTI]) [0-9]+", r"\1", line) for line in lines if re.match("[RTI] ", line)]
    others = [re.sub("^end offence [0-9]+", "end offence", line) for line in lines[len(events):]]
    return events, others


@unittest.skipUnless(os.access(PROGRAM, os.X_OK), "the program isn't built: rt ci builds it, or bin/mw")
class Worked(unittest.TestCase):
    """Each row, and the refusals beside them."""

    def setUp(self):
        self.folder = tempfile.TemporaryDirectory()
        self.addCleanup(self.folder.cleanup)

    def image(self, name):
        """The path of the image of a source."""
        status, image, said = call(["asm", name + ".s"])
        self.assertEqual((status, said), (0, ""), name)
        path = os.path.join(self.folder.name, name + ".img")
        with open(path, "wb") as file:
            file.write(image)
        return path

    def test_rows(self):
        for name, words, wanted, places, lines in ROWS:
            with self.subTest(name):
                status, text, said = call(["run", self.image(name)] + words.split())
                self.assertEqual((status, said), (wanted, ""))
                events, others = without_cycles(text)
                for place, event in places.items():
                    if place == "others":
                        self.assertEqual(set(events[1:]), {event})
                    else:
                        self.assertEqual(events[place], event)
                for line in lines:
                    self.assertIn(line, others)

    def test_changed_code_stops_behind_its_store(self):
        _, text, _ = call(["run", self.image("changed_code"), "--cycles", "40000"])
        self.assertEqual(len(without_cycles(text)[0]), 2)

    def test_an_image_longer_than_ram(self):
        path = self.image("zeros")
        with open(path, "ab") as file:
            file.write(b"\0")
        self.assertEqual(call(["run", path, "--cycles", "0"]), (5, b"", "mw: image exceeds 16777216 bytes\n"))

    def test_a_script_is_refused(self):
        self.assertEqual(call(["run", self.image("five"), "--cycles", "20000", "--script", "cut.script"]),
                         (6, b"", "mw: cut.script:1:4: bad input\n"))

    def test_out_fails(self):
        with open("/dev/full", "wb") as full:
            status, _, said = call(["run", self.image("five"), "--cycles", "20000"], out=full)
        self.assertEqual((status, said), (4, "mw: cannot write\n"))

    def test_words_and_files_are_refused(self):
        path = self.image("five")
        for words in (["run", path], ["run", path, "--cycles", "05"]):
            status, out, said = call(words)
            self.assertEqual((status, out), (2, b""))
            self.assertTrue(said.startswith("mw: usage: mw run IMAGE --cycles N "), said)
        absent = os.path.join(self.folder.name, "absent")
        # a folder is opened, and its first read fails
        for name in (absent, self.folder.name):
            self.assertEqual(call(["run", name, "--cycles", "5"]), (3, b"", "mw: cannot read %s\n" % name))

    def test_assembler(self):
        path = self.image("five")
        with open(path, "rb") as file:
            self.assertEqual(file.read(), bytes.fromhex("0500603800000048"))
        self.assertEqual(call(["dis", path]), (
            0, b"0000000000000000 38600005 addi r3,r0,5\n0000000000000004 48000000 b 0x4\n", ""))
        unknown = os.path.join(self.folder.name, "unknown.s")
        with open(unknown, "w", encoding="ascii") as file:
            file.write("frob r3\n")
        self.assertEqual(call(["asm", unknown]), (6, b"", "mw: %s:1:1: bad input\n" % unknown))


if __name__ == "__main__":
    sys.exit(unittest.main())
