"""The statements of words, as `mw dis` prints them where the program is built."""

import os
import subprocess
import tempfile

from mwtracelib.trace import BadInput

TOP = os.path.dirname(os.path.dirname(os.path.dirname(os.path.abspath(__file__))))
PROGRAM = os.path.join(TOP, "crates", "mw", "out", "mw")
# Each instruction is laid into a slot of its own in the image, so that a prefix keeps its suffix.
SLOT = 8
# The opcodes of b and bc, and the bit that says that the target doesn't count from the branch itself.
BRANCHES = (16, 18)
ABSOLUTE_BIT = 2
ADDRESSES = 1 << 64


def is_relative(words: bytes) -> bool:
    """Whether an instruction is a branch whose target counts from its own address."""
    word = int(words[:8], 16)
    return word >> 26 in BRANCHES and not word & ABSOLUTE_BIT


def moved(statement: str, by: int) -> str:
    """A branch with its target, which stands last, moved."""
    front, _, target = statement.rpartition("0x")
    return "%s0x%x" % (front, (int(target, 16) + by) % ADDRESSES)


def image_of(instructions: list) -> bytes:
    """An image with each instruction in its slot, in the order of bytes of the board."""
    image = b""
    for words in instructions:
        parts = words.split()
        slot = b"".join(int(part, 16).to_bytes(4, "little") for part in parts)
        image += slot.ljust(SLOT, b"\0")
    return image


def printed(image: bytes) -> str:
    """What the program prints of an image."""
    with tempfile.TemporaryDirectory(prefix="mwtrace") as folder:
        path = os.path.join(folder, "words.img")
        with open(path, "wb") as file:
            file.write(image)
        run = subprocess.run([PROGRAM, "dis", path], capture_output=True, check=False)
    if run.returncode != 0:
        raise BadInput("%s dis ended with status %d" % (PROGRAM, run.returncode))
    return run.stdout.decode()


def statements(instructions: list) -> list:
    """The statement of each pair of an address and words, as it is at its address; empty where nothing is built."""
    if not instructions or not os.access(PROGRAM, os.X_OK):
        return [""] * len(instructions)
    by_place = {}
    for line in printed(image_of([words for _, words in instructions])).splitlines():
        place, rest = line.split(" ", 1)
        by_place[int(place, 16)] = rest
    found = []
    for number, (address, words) in enumerate(instructions):
        place = number * SLOT
        statement = by_place[place][len(words) + 1:] if words else ""
        if words and is_relative(words):
            statement = moved(statement, int(address, 16) - place)
        found.append(statement)
    return found
