"""A run in cells: so many rows of addresses and columns of cycles, however long it is.

While a run grows beyond the last column, two columns each become one; while it reaches more addresses than there are
rows, two ranges of addresses each become one row. So nothing of the run must be known before."""

from array import array
from bisect import bisect_left
from collections import Counter
from dataclasses import dataclass, field
from operator import add
from typing import Optional

from mwtracelib.symbols import Symbols
from mwtracelib.trace import Batch, Kind

COLUMNS = 960
ROWS = 256
# At first a row is one word of memory, of 4 bytes.
WORD_SHIFT = 2
# The most addresses whose rows are kept; past it all are forgotten.
MOST_KEPT = 100_000


def empty_columns() -> array:
    """A count for each column."""
    return array("Q", bytes(8 * COLUMNS))


def halved(counts: array) -> array:
    """Counts of columns, two of which each became one."""
    return array("Q", map(add, counts[::2], counts[1::2])) + array("Q", bytes(4 * COLUMNS))


@dataclass
class Row:
    """A range of addresses in which something retired."""
    # retired instructions by column
    counts: array = field(default_factory=empty_columns)
    # retired instructions by the name of their function
    names: dict = field(default_factory=dict)

    def take(self, other: "Row") -> None:
        """Adds another row's counts to this one's."""
        self.counts = array("Q", map(add, self.counts, other.counts))
        for name, count in other.names.items():
            self.names[name] = self.names.get(name, 0) + count

    def name(self) -> Optional[str]:
        """The function in which most instructions of this row retired; of two the first by letters."""
        return min(self.names, key=lambda name: (-self.names[name], name)) if self.names else None


class Grid:
    """The cells of a run, and by column its events and its traps and interrupts."""

    def __init__(self, symbols: Optional[Symbols]):
        self._symbols = symbols
        # by the number of their range of addresses
        self.rows: dict = {}
        self.row_shift = WORD_SHIFT
        self.column_shift = 0
        self.events = empty_columns()
        # by kind and vector: counts by column, only of columns that have some
        self.marks: dict = {}
        # by address: the row, and the name of the function
        self._kept: dict = {}

    def add(self, batch: Batch) -> None:
        """Counts these events."""
        self._reach(batch.cycles[-1])
        first = 0
        while first < len(batch.cycles):
            column = batch.cycles[first] >> self.column_shift
            behind = bisect_left(batch.cycles, column + 1 << self.column_shift, first)
            self.events[column] += behind - first
            counts = Counter(batch.addresses[first:behind])
            for event in batch.others_in(first, behind):
                counts[event.address] -= 1
                self._mark(Kind(event.letter), event.tail, column)
            self._add_column(column, counts)
            first = behind

    def _add_column(self, column: int, counts: Counter) -> None:
        """Counts what retired in a column, by address."""
        kept = self._kept
        for address, count in counts.items():
            if not count:
                continue
            row, name = kept.get(address) or self._entry(address)
            row.counts[column] += count
            if name is not None:
                row.names[name] = row.names.get(name, 0) + count

    def close(self, cycles: int) -> None:
        """Makes room for this number of cycles."""
        self._reach(cycles - 1)

    def column_count(self, cycles: int) -> int:
        """The number of columns that so many cycles take."""
        return -(-cycles >> self.column_shift) or 1

    def _reach(self, cycle: int) -> None:
        while cycle >> self.column_shift >= COLUMNS:
            self.merge_columns()

    def merge_columns(self) -> None:
        """Makes one column of two each."""
        self.column_shift += 1
        self.events = halved(self.events)
        for counts in [row.counts for row in self.rows.values()]:
            counts[:] = halved(counts)
        for key, counts in self.marks.items():
            wider: Counter = Counter()
            for column, count in counts.items():
                wider[column >> 1] += count
            self.marks[key] = wider

    def _mark(self, kind: Kind, vector: bytes, column: int) -> None:
        self.marks.setdefault((kind, vector), Counter())[column] += 1

    def _entry(self, address: bytes) -> tuple:
        """The row of an address, which may be new, and the name of its function."""
        number = int(address, 16)
        while number >> self.row_shift not in self.rows and len(self.rows) >= ROWS:
            self._merge_rows()
        row = self.rows.get(number >> self.row_shift)
        if row is None:
            row = self.rows[number >> self.row_shift] = Row()
        place = self._symbols.place(address) if self._symbols is not None else None
        if len(self._kept) >= MOST_KEPT:
            self._kept.clear()
        entry = self._kept[address] = (row, None if place is None else place.symbol.name)
        return entry

    def _merge_rows(self) -> None:
        """Makes one row of two ranges of addresses each."""
        self.row_shift += 1
        rows: dict = {}
        for number, row in self.rows.items():
            if number >> 1 in rows:
                rows[number >> 1].take(row)
            else:
                rows[number >> 1] = row
        self.rows = rows
        self._kept.clear()
