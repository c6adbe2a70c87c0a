"""How far a long input is read: told on a terminal alone."""

import os
import pty
import subprocess
import sys
import time
import unittest

import made
from base import TOOLS, ToolTest

sys.path.insert(0, TOOLS)

from mwtracelib import progress  # noqa: E402


class ProgressTest(ToolTest):
    """Standard error, which the other tests see as a pipe without a byte in it."""

    def on_terminal(self, pause):
        """What stands on a terminal behind a run that comes in two parts with a pause between them."""
        events = ["R %d %016x 38600001\n" % (cycle, 4 * cycle) for cycle in range(4_000)]
        ours, theirs = pty.openpty()
        tool = [os.path.join(self.folder, "tools", "mwtrace"), "summary", "-"]
        with subprocess.Popen(tool, stdin=subprocess.PIPE, stdout=subprocess.PIPE, stderr=theirs) as run:
            run.stdin.write("".join(events[:2_000]).encode())
            run.stdin.flush()
            time.sleep(pause)
            run.stdin.write(("".join(events[2_000:]) + made.ending("end ran 4000")).encode())
            run.stdin.close()
            output = run.stdout.read()
        os.close(theirs)
        try:
            told = os.read(ours, 4096)
        except OSError:
            told = b""
        os.close(ours)
        self.assertIn(b"events                   4000\n", output)
        return told

    def test_long_input(self):
        told = self.on_terminal(3 * progress.PAUSE)
        self.assertRegex(told, rb"\rmwtrace: standard input: [0-9],[0-9]{3} lines")
        self.assertTrue(told.endswith(b" \r"))


if __name__ == "__main__":
    unittest.main()
