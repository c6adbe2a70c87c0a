"""A printed run, read as it comes: its events in batches, then its end. docs/BOARD.md has the form of each line."""

import sys
from dataclasses import dataclass
from enum import Enum
from typing import Iterator, NamedTuple, Optional

from mwtracelib.progress import Progress

HEX_DIGITS = b"0123456789abcdef"
# The bytes that are read at once, so few that what is made of them stays in the processor's caches, and the longest
# line that is taken.
CHUNK = 1 << 16
LONGEST_LINE = 1 << 20
LARGEST_CYCLE = (1 << 64) - 1
WORD_DIGITS = 8
ADDRESS_DIGITS = 16
VECTOR_DIGITS = 4
# The most bytes of a dump, and those of one of its lines.
LARGEST_DUMP = 65_536
DUMP_LINE = 32

SHORT_REGISTERS = ("cr", "dsisr", "dec", "pidr")
REGISTERS = tuple("r%d" % number for number in range(32)) + (
    "cr", "xer", "lr", "ctr", "tar", "cia", "msr", "srr0", "srr1", "hsrr0", "hsrr1", "dar", "dsisr", "dec", "pidr",
    "sprg0", "sprg1", "sprg2", "sprg3", "hsprg0", "hsprg1", "prtbl")


class BadInput(Exception):
    """An input that can't be used; its text is the one line that is told."""


class Kind(Enum):
    """What an event is; the value is the letter of its line."""
    RETIRE = b"R"
    TRAP = b"T"
    INTERRUPT = b"I"


LETTERS = {kind.value for kind in Kind}
RETIRED = Kind.RETIRE.value


class Event(NamedTuple):
    """One event. An address stays the text of its 16 digits, whose order is that of the numbers."""
    letter: bytes
    cycle: int
    address: bytes
    # the word, the prefix and the suffix, or the vector
    tail: bytes


@dataclass(frozen=True)
class Batch:
    """Some events that follow each other, a list for each part of them: what is done to a list at once is fast."""
    lines: list
    letters: tuple
    cycles: list
    addresses: tuple
    tails: tuple

    def others_in(self, first: int, behind: int) -> Iterator[Event]:
        """The traps and interrupts from the first of these places on up to before the other."""
        letters = self.letters[first:behind]
        if letters.count(RETIRED) < len(letters):
            for place, letter in enumerate(letters, first):
                if letter != RETIRED:
                    yield self.event(place)

    def event(self, place: int) -> Event:
        """The event at a place."""
        return Event(self.letters[place], self.cycles[place], self.addresses[place], self.tails[place])


@dataclass(frozen=True)
class Offence:
    """The access at which a run stopped, since it breaks the update discipline."""
    # fetch, load or store
    kind: str
    address: bytes
    # the words behind the address: of a block its address and status, of a page where it is kept and what it comes to
    why: list


@dataclass(frozen=True)
class Ending:
    """What stands behind the events."""
    lines: list
    # the number of cycles that were asked for, or the cycle of the offence
    cycle: int
    # None where the run reached its number of cycles
    offence: Optional[Offence]
    # each register's digits, by its name, in their order
    registers: dict
    uart: bytes
    # pairs of an address and its bytes
    dump: list


def is_hex(text: bytes, digits: int) -> bool:
    """Whether a text is so many hexadecimal digits in lower case."""
    return len(text) == digits and not text.strip(HEX_DIGITS)


def is_number(text: bytes) -> bool:
    """Whether a text is a decimal number of 64 bits without leading zeros."""
    if not text.isdigit() or (len(text) > 1 and text[:1] == b"0"):
        return False
    return len(text) < 20 or (len(text) == 20 and int(text) <= LARGEST_CYCLE)


def is_tail(letter: bytes, tail: bytes) -> bool:
    """Whether a text may stand behind the address of an event of this letter."""
    if letter != RETIRED:
        return is_hex(tail, VECTOR_DIGITS)
    word, space, suffix = tail.partition(b" ")
    return is_hex(word, WORD_DIGITS) and (not space or is_hex(suffix, WORD_DIGITS))


def is_event(line: bytes) -> bool:
    """Whether a line tells an event."""
    fields = line.split(b" ", 3)
    if len(fields) != 4 or fields[0] not in LETTERS:
        return False
    return is_number(fields[1]) and is_hex(fields[2], ADDRESS_DIGITS) and is_tail(fields[0], fields[3])


def cycles_of(numbers: tuple) -> Optional[list]:
    """The numbers that these texts tell, or None where one of them isn't a number."""
    try:
        cycles = list(map(int, numbers))
    except ValueError:
        return None
    if not b"".join(numbers).isdigit() or max(cycles) > LARGEST_CYCLE:
        return None
    has_leading_zero = any(len(number) > 1 for number in numbers if number < b"1")
    return None if has_leading_zero else cycles


def batch_of(lines: list) -> Optional[Batch]:
    """The events of these lines, of which there is one at least, or None where one of them tells no event."""
    fields = [line.split(b" ", 3) for line in lines]
    if set(map(len, fields)) != {4}:
        return None
    letters, numbers, addresses, tails = zip(*fields)
    cycles = cycles_of(numbers)
    if cycles is None or not set(letters) <= LETTERS:
        return None
    if set(map(len, addresses)) != {ADDRESS_DIGITS} or b"".join(addresses).translate(None, HEX_DIGITS):
        return None
    if not all(is_tail(letter, tail) for letter, tail in set(zip(letters, tails))):
        return None
    return Batch(lines, letters, cycles, addresses, tails)


def is_offence_tail(fields: list) -> bool:
    """Whether these fields may stand behind `end offence CYCLE`."""
    if len(fields) < 5 or fields[0] not in (b"fetch", b"load", b"store"):
        return False
    if not is_hex(fields[1], ADDRESS_DIGITS) or not is_hex(fields[3], ADDRESS_DIGITS):
        return False
    if fields[2] == b"block":
        return fields[4:] in ([b"changed"], [b"invalidated"])
    if fields[2] != b"page":
        return False
    if fields[4] == b"fault":
        return len(fields) == 6 and is_hex(fields[5], VECTOR_DIGITS)
    return len(fields) == 5 and is_hex(fields[4], ADDRESS_DIGITS)


def is_end(line: bytes) -> bool:
    """Whether a line is one that ends the events."""
    fields = line.split(b" ")
    if len(fields) < 3 or fields[0] != b"end" or not is_number(fields[2]):
        return False
    if fields[1] == b"ran":
        return len(fields) == 3
    return fields[1] == b"offence" and is_offence_tail(fields[3:])


def offence_of(fields: list) -> Optional[Offence]:
    """The offence that the fields of an end line tell, if they tell one."""
    if fields[1] != b"offence":
        return None
    return Offence(fields[3].decode(), fields[4], [field.decode() for field in fields[5:]])


def bytes_of(text: bytes) -> Optional[bytes]:
    """The bytes of pairs of hexadecimal digits in lower case, one pair at least, or None."""
    if not text or len(text) % 2 or text.strip(HEX_DIGITS):
        return None
    return bytes.fromhex(text.decode())


class Trace:
    """A printed run. `batches` gives its events once; `ending` is there behind the last of them."""

    def __init__(self, path: str):
        self.name = "standard input" if path == "-" else path
        self.ending: Optional[Ending] = None
        self._file = self._opened(path)
        # the lines that were read, and the cycle of the last event
        self._number = 0
        self._cycle = -1
        # the lines from the end line on
        self._last_lines: list = []

    @staticmethod
    def _opened(path: str):
        if path == "-":
            return sys.stdin.buffer
        try:
            return open(path, "rb")
        except OSError as error:
            raise BadInput("cannot read %s: %s" % (path, error.strerror)) from error

    def bad(self, number: int, why: str) -> BadInput:
        """The refusal of a line."""
        return BadInput("%s:%d: %s" % (self.name, number, why))

    def batches(self) -> Iterator[Batch]:
        """The events in their order, some thousand at a time; BadInput where the text isn't a printed run."""
        with self._file, Progress(self.name) as progress:
            for lines in self._line_batches():
                batch = self._batch_of(lines)
                if batch is not None:
                    yield batch
                progress.tell(self._number)
        if not self._last_lines:
            raise self.bad(self._number + 1, "the text ends before the end line of its events")
        self.ending = self._read_ending()

    def _line_batches(self) -> Iterator[list]:
        """The lines without their line feeds."""
        rest = b""
        while True:
            try:
                chunk = self._file.read1(CHUNK)
            except OSError as error:
                raise BadInput("cannot read %s: %s" % (self.name, error.strerror)) from error
            if not chunk:
                break
            lines = (rest + chunk).split(b"\n")
            rest = lines.pop()
            yield lines
            if len(rest) > LONGEST_LINE:
                raise self.bad(self._number + 1, "a line of more than %d bytes" % LONGEST_LINE)
        if rest:
            raise self.bad(self._number + 1, "the last line is cut: it has no line feed")

    def _batch_of(self, lines: list) -> Optional[Batch]:
        """The events of these lines, if there are any. Those from the end line on are kept for later."""
        if self._last_lines:
            self._keep(lines)
            return None
        batch = batch_of(lines) if lines else None
        if batch is not None:
            self._take(batch)
            return batch
        count = next((place for place, line in enumerate(lines) if not is_event(line)), 0)
        if count:
            batch = batch_of(lines[:count])
            self._take(batch)
        if lines:
            self._begin_ending(lines[count:])
        return batch

    def _take(self, batch: Batch) -> None:
        """Counts the lines of a batch, whose cycles may not fall."""
        cycles = [self._cycle, *batch.cycles]
        if cycles != sorted(cycles):
            place = next(place for place in range(1, len(cycles)) if cycles[place] < cycles[place - 1])
            raise self.bad(self._number + place, "cycle %d behind cycle %d" % (cycles[place], cycles[place - 1]))
        self._cycle = cycles[-1]
        self._number += len(batch.lines)

    def _begin_ending(self, lines: list) -> None:
        """Takes the end line and what stands behind it."""
        if not is_end(lines[0]):
            raise self.bad(self._number + 1, "not a line of a printed run")
        fields = lines[0].split(b" ")
        last = int(fields[2])
        # cycle N of `end ran N` isn't run, and that of an offence has no event
        if last <= self._cycle:
            raise self.bad(self._number + 1, "an end at cycle %d behind an event of cycle %d" % (last, self._cycle))
        self._keep(lines)

    def _keep(self, lines: list) -> None:
        """Keeps lines from the end line on, as many as there may be."""
        most = 2 + len(REGISTERS) + LARGEST_DUMP // DUMP_LINE
        if len(self._last_lines) + len(lines) > most:
            raise self.bad(self._number + most - len(self._last_lines) + 1, "more lines than a printed run has")
        self._last_lines += lines
        self._number += len(lines)

    def _read_ending(self) -> Ending:
        """The ending that the last lines tell."""
        lines = self._last_lines
        first = self._number - len(lines) + 1
        uart_at = 1 + len(REGISTERS)
        registers = {}
        for place, name in enumerate(REGISTERS, 1):
            registers[name] = self._register(lines, first, place, name)
        if len(lines) <= uart_at:
            raise self.bad(first + uart_at, "the text ends where the bytes of the UART are told")
        fields = lines[uart_at].split(b" ")
        sent = b"" if fields == [b"uart", b"-"] else bytes_of(fields[1]) if len(fields) == 2 else None
        if fields[0] != b"uart" or sent is None:
            raise self.bad(first + uart_at, "not the bytes of the UART")
        end = lines[0].split(b" ")
        dump = self._read_dump(lines[uart_at + 1:], first + uart_at + 1)
        return Ending(lines, int(end[2]), offence_of(end), registers, sent, dump)

    def _register(self, lines: list, first: int, place: int, name: str) -> bytes:
        """The digits of one register."""
        if len(lines) <= place:
            raise self.bad(first + place, "the text ends where register %s is told" % name)
        digits = 8 if name in SHORT_REGISTERS else 16
        fields = lines[place].split(b" ")
        if len(fields) != 2 or fields[0] != name.encode() or not is_hex(fields[1], digits):
            raise self.bad(first + place, "not register %s with its %d digits" % (name, digits))
        return fields[1]

    def _read_dump(self, lines: list, first: int) -> list:
        """The dump's lines, each with its address and its bytes."""
        dump = []
        for number, line in enumerate(lines, first):
            fields = line.split(b" ")
            content = bytes_of(fields[2]) if len(fields) == 3 else None
            if content is None or fields[0] != b"m" or len(content) > DUMP_LINE:
                raise self.bad(number, "not a line of a dump")
            if not is_hex(fields[1], ADDRESS_DIGITS):
                raise self.bad(number, "not the address of a line of a dump")
            address = int(fields[1], 16)
            if dump and (address != dump[-1][0] + DUMP_LINE or len(dump[-1][1]) != DUMP_LINE):
                raise self.bad(number, "a line of a dump that doesn't continue the one before")
            dump.append((address, content))
        return dump
