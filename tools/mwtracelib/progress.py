"""How far a long input is read, on standard error where that is a terminal."""

import sys
import time

# The seconds between two tellings; an input that is read in less is never told of.
PAUSE = 0.5


class Progress:
    """A line that is written over and over, and gone at the end."""

    def __init__(self, name: str):
        self._name = name
        self._is_told = sys.stderr.isatty()
        self._next = time.monotonic() + PAUSE
        self._width = 0

    def __enter__(self) -> "Progress":
        return self

    def __exit__(self, *_) -> None:
        if self._width:
            sys.stderr.write("\r%s\r" % (" " * self._width))
            sys.stderr.flush()

    def tell(self, lines: int) -> None:
        """Tells how many lines were read, if it is time to."""
        if not self._is_told or time.monotonic() < self._next:
            return
        text = "mwtrace: %s: %s lines" % (self._name, format(lines, ","))
        sys.stderr.write("\r" + text.ljust(self._width))
        sys.stderr.flush()
        self._width = max(self._width, len(text))
        self._next = time.monotonic() + PAUSE
