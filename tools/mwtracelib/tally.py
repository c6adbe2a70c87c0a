"""Retired instructions and cycles by address. Beyond some number of addresses they lie in files, sorted."""

import heapq
import struct
import tempfile
from collections import Counter
from itertools import chain, repeat, starmap
from operator import sub
from typing import Iterator, NamedTuple

from mwtracelib.trace import RETIRED, Batch

# The most addresses in memory, which take some 60 MB.
MOST_IN_MEMORY = 150_000
# An address, the number of the file, the address's retired instructions and cycles, and its words, filled with zero
# bytes.
RECORD = struct.Struct(">16sIQQ17s")
RECORDS_AT_ONCE = 1024


class Count(NamedTuple):
    """What is known of an address: its words are those of its first retirement, empty where there is none."""
    address: bytes
    retired: int
    cycles: int
    words: bytes


class Tally:
    """Counts events, and gives the counts in the order of addresses."""

    def __init__(self):
        # by address
        self._cycles: dict = {}
        self._retired: Counter = Counter()
        self._words: dict = {}
        self._files: list = []
        # the last event
        self._last_address = b""
        self._last_cycle = 0
        # the cycles before the first event
        self.before = 0

    def add(self, batch: Batch) -> None:
        """Counts these events. The cycles from one to the next belong to the address of the first of the two."""
        if not self._last_address:
            self.before = batch.cycles[0]
        else:
            self._cycles[self._last_address] += batch.cycles[0] - self._last_cycle
        cycles = self._cycles
        for address, taken in zip(batch.addresses, map(sub, batch.cycles[1:], batch.cycles)):
            if address in cycles:
                cycles[address] += taken
            else:
                cycles[address] = taken
        self._last_address, self._last_cycle = batch.addresses[-1], batch.cycles[-1]
        cycles.setdefault(self._last_address, 0)
        self._add_retired(batch)
        if len(cycles) > MOST_IN_MEMORY:
            self._spill()

    def _add_retired(self, batch: Batch) -> None:
        """Counts what retired, and keeps the words of each address."""
        addresses, tails = batch.addresses, batch.tails
        if batch.letters.count(RETIRED) < len(batch.letters):
            places = [place for place, letter in enumerate(batch.letters) if letter == RETIRED]
            addresses, tails = [addresses[place] for place in places], [tails[place] for place in places]
        self._retired.update(addresses)
        # the words that an address had first stay
        for address, words in dict(zip(reversed(addresses), reversed(tails))).items():
            self._words.setdefault(address, words)

    def close(self, cycles: int) -> None:
        """Takes the cycles behind the last event, of so many cycles in all."""
        if not self._last_address:
            self.before = cycles
        else:
            self._cycles[self._last_address] += cycles - self._last_cycle

    def _in_memory(self) -> Iterator[tuple]:
        """The counts that are in memory, as the parts of records, in the order of addresses."""
        addresses = sorted(self._cycles)
        return zip(
            addresses, repeat(len(self._files)), map(self._retired.get, addresses, repeat(0)),
            map(self._cycles.get, addresses), map(self._words.get, addresses, repeat(b"")))

    def _spill(self) -> None:
        """Writes the counts to a file, and begins anew with the last event's address."""
        file = tempfile.TemporaryFile(prefix="mwtrace")
        file.writelines(starmap(RECORD.pack, self._in_memory()))
        self._files.append(file)
        self._cycles = {self._last_address: 0}
        self._retired = Counter()
        self._words = {}

    def counts(self) -> Iterator[tuple]:
        """The count of each address as the parts of a record, in ascending order."""
        if not self._files:
            yield from self._in_memory()
            return
        parts = [records(file) for file in self._files]
        # of one address the counts come in the order of the files
        ordered = heapq.merge(*parts, self._in_memory())
        last = next(ordered)
        for count in ordered:
            if count[0] != last[0]:
                yield last
                last = count
            else:
                last = merged(last, count)
        yield last


def records(file) -> Iterator[tuple]:
    """The parts of the records in a file."""
    file.seek(0)
    parts = iter(lambda: file.read(RECORD.size * RECORDS_AT_ONCE), b"")
    return chain.from_iterable(map(RECORD.iter_unpack, parts))


def merged(first: tuple, second: tuple) -> tuple:
    """Two counts of one address, of which the first is the earlier, as one."""
    address, number, retired, cycles, words = first
    _, _, later_retired, later_cycles, later_words = second
    return address, number, retired + later_retired, cycles + later_cycles, words.rstrip(b"\0") or later_words


def count_of(parts: tuple) -> Count:
    """The count that has these parts of a record, its words without the zero bytes that fill them."""
    address, _, retired, cycles, words = parts
    return Count(address, retired, cycles, words.rstrip(b"\0"))
