"""Where two runs part."""

import sys
from collections import deque
from dataclasses import dataclass
from itertools import zip_longest
from typing import Optional

from mwtracelib.trace import BadInput, Batch, Ending, Trace

# The events that are shown before the first difference, and behind it.
AROUND = 5
# The most lines of a dump that are shown.
MOST_DUMP_LINES = 16
# The bytes of the UART that are shown from where they part.
MOST_SENT = 16
ABSENT = "-"


def is_same(first: Optional[bytes], second: Optional[bytes], ignores_cycles: bool) -> bool:
    """Whether the lines of two events, of which one may be missing, count as the same."""
    if first is None or second is None or not ignores_cycles:
        return first == second
    one, other = first.split(b" "), second.split(b" ")
    del one[1], other[1]
    return one == other


def pair_line(mark: str, first: str, second: str) -> str:
    """Two texts side by side."""
    return ("%s %-46s  %s" % (mark, first, second)).rstrip()


class Side:
    """One of the two runs, and how far its events are compared."""

    def __init__(self, trace: Trace):
        self._batches = trace.batches()
        self._batch: Optional[Batch] = None
        self._at = 0

    def at_hand(self) -> int:
        """How many events are at hand; none only where the run has no more."""
        while self._batch is None or self._at == len(self._batch.lines):
            self._at = 0
            self._batch = next(self._batches, None)
            if self._batch is None:
                return 0
        return len(self._batch.lines) - self._at

    def part(self, count: int, ignores_cycles: bool) -> tuple:
        """What is compared of the next events."""
        batch, part = self._batch, slice(self._at, self._at + count)
        if ignores_cycles:
            return batch.letters[part], batch.addresses[part], batch.tails[part]
        return (batch.lines[part],)

    def take(self, count: int) -> list:
        """The lines of the next events, which are at hand."""
        lines = self._batch.lines[self._at:self._at + count]
        self._at += count
        return lines

    def take_more(self, count: int) -> list:
        """The lines of so many of the next events, or of all that are left."""
        lines: list = []
        while len(lines) < count and self.at_hand():
            lines += self.take(min(count - len(lines), self.at_hand()))
        return lines

    def skip(self) -> None:
        """Reads the run to its end."""
        while self.at_hand():
            self._at = len(self._batch.lines)


@dataclass(frozen=True)
class Parting:
    """Where the events of two runs part: the number of the first pair that differs, and pairs of lines around it."""
    number: int
    before: list
    behind: list


def parting(first: Side, second: Side, ignores_cycles: bool) -> Optional[Parting]:
    """Where two runs part, or None where all their events are the same."""
    before: deque = deque(maxlen=AROUND)
    number = 0
    while True:
        count = same = min(first.at_hand(), second.at_hand())
        if not count:
            break
        if first.part(count, ignores_cycles) != second.part(count, ignores_cycles):
            same = first_difference(first.part(count, False), second.part(count, False), ignores_cycles)
        before.extend(zip(first.take(same)[-AROUND:], second.take(same)[-AROUND:]))
        number += same
        if same < count:
            break
    behind = list(zip_longest(first.take_more(1 + AROUND), second.take_more(1 + AROUND)))
    return Parting(number + 1, list(before), behind) if behind else None


def first_difference(first: tuple, second: tuple, ignores_cycles: bool) -> int:
    """How many lines are the same before the first pair that isn't."""
    pairs = enumerate(zip(first[0], second[0]))
    return next(place for place, pair in pairs if not is_same(*pair, ignores_cycles))


def event_lines(found: Parting, first: Ending, second: Ending, ignores_cycles: bool) -> list:
    """The first difference, with some pairs around it. Where a run has no more events, its end stands once."""
    lines = ["", "first difference: event %d" % found.number]
    lines += [pair_line(" ", *(event.decode() for event in pair)) for pair in found.before]
    is_ended = [False, False]
    for pair in found.behind:
        texts = []
        for side, (event, ending) in enumerate(zip(pair, (first, second))):
            texts.append((event or (b"" if is_ended[side] else ending.lines[0])).decode())
            is_ended[side] = event is None
        lines.append(pair_line(" " if is_same(*pair, ignores_cycles) else "!", *texts))
    return lines


def end_lines(first: Ending, second: Ending, ignores_cycles: bool) -> list:
    """How the two ended, where that differs."""
    ends = [ending.lines[0].decode() for ending in (first, second)]
    kept = list(ends)
    if ignores_cycles:
        kept = [" ".join(end.split()[:2] + end.split()[3:]) for end in ends]
    return [] if kept[0] == kept[1] else ["", "the ends differ", pair_line("!", *ends)]


def register_lines(first: Ending, second: Ending) -> list:
    """The registers that differ."""
    lines = []
    for name, value in first.registers.items():
        other = second.registers[name]
        if value != other:
            lines.append(pair_line("!", "%s %s" % (name, value.decode()), "%s %s" % (name, other.decode())))
    return ["", "registers that differ at the end", *lines] if lines else []


def shared_length(first: bytes, second: bytes) -> int:
    """The number of bytes up to where two texts part."""
    for place, (one, other) in enumerate(zip(first, second)):
        if one != other:
            return place
    return min(len(first), len(second))


def sent_text(sent: bytes) -> str:
    """The first of some bytes that were sent, two digits each."""
    text = sent[:MOST_SENT].hex()
    if len(sent) > MOST_SENT:
        text += ".. (%d bytes)" % len(sent)
    return text or ABSENT


def uart_lines(first: Ending, second: Ending) -> list:
    """Where the bytes of the UART part."""
    if first.uart == second.uart:
        return []
    shared = shared_length(first.uart, second.uart)
    return ["", "the UART sent %d bytes that are the same, then" % shared,
            pair_line("!", sent_text(first.uart[shared:]), sent_text(second.uart[shared:]))]


def dump_lines(first: Ending, second: Ending) -> list:
    """Where the dumps differ."""
    by_address = [dict(ending.dump) for ending in (first, second)]
    lines, number = [], 0
    for address in sorted(by_address[0].keys() | by_address[1].keys()):
        contents = [dump.get(address) for dump in by_address]
        if contents[0] == contents[1]:
            continue
        number += 1
        if number <= MOST_DUMP_LINES:
            texts = [ABSENT if content is None else content.hex() for content in contents]
            lines += ["! %016x %s" % (address, texts[0]), "  %s %s" % (" " * 16, texts[1])]
    if number > MOST_DUMP_LINES:
        lines.append("  (%d more)" % (number - MOST_DUMP_LINES))
    return ["", "lines of the dumps that differ, A's above B's", *lines] if lines else []


def run(arguments) -> int:
    """The word diff."""
    if arguments.first == arguments.second == "-":
        raise BadInput("standard input can be one run alone")
    first, second = Trace(arguments.first), Trace(arguments.second)
    ignores_cycles = arguments.ignore_cycles
    sides = Side(first), Side(second)
    found = parting(*sides, ignores_cycles)
    for side in sides:
        side.skip()
    lines = ["A %s" % first.name, "B %s" % second.name]
    heading = len(lines)
    if found is not None:
        lines += event_lines(found, first.ending, second.ending, ignores_cycles)
    lines += end_lines(first.ending, second.ending, ignores_cycles)
    lines += register_lines(first.ending, second.ending)
    lines += uart_lines(first.ending, second.ending) + dump_lines(first.ending, second.ending)
    if len(lines) == heading:
        return 0
    sys.stdout.write("".join(line + "\n" for line in lines))
    return 1
