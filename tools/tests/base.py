"""What the tests share: a copy of the program in a folder of its own, where a stand-in may be built beside it."""

import os
import shutil
import subprocess
import sys
import tempfile
import unittest

import made

TESTS = os.path.dirname(os.path.abspath(__file__))
TOOLS = os.path.dirname(TESTS)
TOP = os.path.dirname(TOOLS)
# A stand-in of `mw dis IMAGE`: it knows some words, and counts targets from their place in the image, as mw does.
MW = r'''#!/usr/bin/env python3
import struct, sys
assert sys.argv[1] == "dis"
content = open(sys.argv[2], "rb").read()
words = struct.unpack("<%dI" % (len(content) // 4), content)
known = {0x3860042F: "addi r3,r0,1071", 0x7CA32212: "modud r5,r3,r4", 0x48000102: "ba 0x100", 0x4C000024: "rfid"}
relative = {0x4082FFF0: ("bc 4,2,", -16), 0x48000000: ("b ", 0)}
at = 0
while at < len(words):
    word, place = words[at], 4 * at
    if word == 0x04100000:
        print("%016x %08x %08x pld r5,56(0),1" % (place, word, words[at + 1]))
        at += 1
    elif word in relative:
        name, by = relative[word]
        print("%016x %08x %s0x%x" % (place, word, name, (place + by) % 2**64))
    else:
        print("%016x %08x %s" % (place, word, known.get(word, ".long 0x%08x" % word)))
    at += 1
'''


class ToolTest(unittest.TestCase):
    """A test of the program in a fresh folder."""

    maxDiff = None

    def setUp(self):
        folder = tempfile.TemporaryDirectory()
        self.addCleanup(folder.cleanup)
        self.folder = folder.name
        shutil.copytree(TOOLS, os.path.join(self.folder, "tools"), ignore=shutil.ignore_patterns("tests"))
        shutil.copytree(os.path.join(TESTS, "data"), os.path.join(self.folder, "data"))

    def write(self, name, content):
        """Writes a file into the folder, and gives its name."""
        path = os.path.join(self.folder, name)
        os.makedirs(os.path.dirname(path), exist_ok=True)
        with open(path, "wb") as file:
            file.write(content.encode() if isinstance(content, str) else content)
        return name

    def write_program(self, name, content):
        """Writes a program into the folder."""
        self.write(name, content)
        os.chmod(os.path.join(self.folder, name), 0o755)

    def trace(self, events, end, **rest):
        """Writes a made run, and gives its name."""
        return self.write("made.txt", made.trace(events, end, **rest))

    def run_tool(self, *words, given=b"", path=None):
        """The status, standard output and standard error of the program with these words."""
        environment = dict(os.environ)
        if path is not None:
            environment["PATH"] = path + os.pathsep + environment["PATH"]
        tool = os.path.join(self.folder, "tools", "mwtrace")
        run = subprocess.run([sys.executable, tool, *words], input=given, capture_output=True, cwd=self.folder,
                             env=environment, check=False)
        return run.returncode, run.stdout.decode(), run.stderr.decode()

    def check(self, words, output, status=0):
        """Checks that these words print this text, and nothing on standard error."""
        self.assertEqual(self.run_tool(*words), (status, output, ""))

    def check_refused(self, words, line):
        """Checks that these words are refused by this one line."""
        status, _, errors = self.run_tool(*words)
        self.assertEqual((status, errors), (2, line + "\n"))
