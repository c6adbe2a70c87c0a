"""File and line of an address, as addr2line tells them: one process that is asked some addresses at a time."""

import os
import shutil
import subprocess
from typing import Optional

# The programs that are tried; the first one that is installed is asked.
PROGRAMS = ("powerpc64le-linux-gnu-addr2line", "powerpc64-linux-gnu-addr2line", "addr2line")
# The addresses of one question. It and its answers must fit the pipes, so that none waits for the other.
MOST_ASKED = 16
# The most answers that are kept; past it all are forgotten.
MOST_KEPT = 100_000


class SourceLines:
    """A running addr2line with the answers that it gave."""

    def __init__(self, process: subprocess.Popen):
        self._process = process
        self._known: dict = {}

    @staticmethod
    def started(path: str) -> Optional["SourceLines"]:
        """The lines of this ELF file, or None where no such program is installed."""
        for program in PROGRAMS:
            if shutil.which(program):
                words = [program, "-s", "-e", os.path.abspath(path)]
                return SourceLines(subprocess.Popen(
                    words, stdin=subprocess.PIPE, stdout=subprocess.PIPE, stderr=subprocess.DEVNULL))
        return None

    def learn(self, addresses: set) -> None:
        """Asks for these addresses, of 16 digits each, as far as they aren't known."""
        if len(self._known) > MOST_KEPT:
            self._known.clear()
        unknown = sorted(addresses - self._known.keys())
        for at in range(0, len(unknown), MOST_ASKED):
            self._ask(unknown[at:at + MOST_ASKED])

    def _ask(self, addresses: list) -> None:
        try:
            self._process.stdin.write(b"".join(b"0x%s\n" % address for address in addresses))
            self._process.stdin.flush()
        except OSError:
            # the program ended: it may not know this kind of file
            pass
        for address in addresses:
            self._known[address] = self._answer()

    def _answer(self) -> bytes:
        """The next answer, empty where there is none."""
        answer = self._process.stdout.readline().strip()
        if not answer or answer.startswith(b"??"):
            return b""
        return answer.split(b" (")[0]

    def at(self, address: bytes) -> bytes:
        """File and line of an address that was learnt; empty where they aren't known."""
        return self._known[address]

    def close(self) -> None:
        """Ends the program that was asked."""
        try:
            self._process.stdin.close()
        except OSError:
            # it ended before, and what it was to be asked last is given up
            pass
        self._process.stdout.close()
        self._process.wait()
