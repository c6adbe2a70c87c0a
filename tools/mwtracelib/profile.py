"""Where the time of a run went: by function or block, by address, and by trap and interrupt."""

import heapq
import sys
from typing import NamedTuple, Optional

from mwtracelib.disassembly import statements
from mwtracelib.returns import Returns, vector_text
from mwtracelib.symbols import Symbols, digits_of, symbols_of
from mwtracelib.tally import Count, Tally, count_of
from mwtracelib.trace import Trace

BLOCK = 64
# The most traps and interrupts without a return that are told one by one.
MOST_WAITING = 5


class Line(NamedTuple):
    """A line of the table: larger is hotter."""
    cycles: int
    # the later of two that took as long stands lower
    minus_number: int
    retired: int
    what: object


class Top:
    """The hottest lines of a table, and what all of them come to."""

    def __init__(self, most: int):
        self._most = most
        self._lines: list = []
        self.number = 0
        self.retired = 0
        self.cycles = 0

    def add(self, retired: int, cycles: int, what: object) -> None:
        """Takes a line."""
        self.number += 1
        self.retired += retired
        self.cycles += cycles
        if len(self._lines) < self._most:
            heapq.heappush(self._lines, Line(cycles, -self.number, retired, what))
        elif cycles > self._lines[0].cycles:
            heapq.heapreplace(self._lines, Line(cycles, -self.number, retired, what))

    def lines(self) -> list:
        """The hottest lines, the hottest first."""
        return sorted(self._lines, reverse=True)


def group_of(symbols: Optional[Symbols], address: bytes) -> tuple:
    """The function of an address, or its block where there are no symbols, and the first address that can have another."""
    if symbols is None:
        block = int(address, 16) & -BLOCK
        return "%016x" % block, digits_of(block + BLOCK)
    place = symbols.place(address)
    return "-" if place is None else place.symbol.name, symbols.bound(address)


def gathered(tally: Tally, symbols: Optional[Symbols], most: int) -> tuple:
    """The hottest groups, and the hottest addresses."""
    groups, addresses = Top(most), Top(most)
    group, bound = None, b""
    retired, cycles = 0, 0
    for count in tally.counts():
        address, _, count_retired, count_cycles, _ = count
        if address >= bound:
            # what stood behind the bound can still be of the same name
            name, bound = group_of(symbols, address)
            if name != group:
                if group is not None:
                    groups.add(retired, cycles, group)
                group, retired, cycles = name, 0, 0
        retired += count_retired
        cycles += count_cycles
        addresses.add(count_retired, count_cycles, count)
    if group is not None:
        groups.add(retired, cycles, group)
    return groups, addresses


def row(retired: object, cycles: object, share: str, text: str) -> str:
    """A line of a table of three numbers and a text."""
    return ("%10s %10s %7s  %s" % (retired, cycles, share, text)).rstrip()


def share_of(cycles: int, all_cycles: int) -> str:
    """A part of all cycles."""
    return "%.2f%%" % (100 * cycles / all_cycles) if all_cycles else "-"


def group_lines(groups: Top, title: str, cycles: int) -> list:
    """The table of functions or blocks."""
    lines = [row("retired", "cycles", "share", title)]
    shown = groups.lines()
    for line in shown:
        lines.append(row(line.retired, line.cycles, share_of(line.cycles, cycles), line.what))
    rest = groups.number - len(shown)
    if rest:
        rest_cycles = groups.cycles - sum(line.cycles for line in shown)
        rest_retired = groups.retired - sum(line.retired for line in shown)
        lines.append(row(rest_retired, rest_cycles, share_of(rest_cycles, cycles), "(%d more)" % rest))
    return lines


def address_text(count: Count, statement: str, symbols: Optional[Symbols]) -> list:
    """What the table says of an address behind its numbers, part by part."""
    place = symbols.place(count.address) if symbols is not None else None
    name = "" if symbols is None else "-" if place is None else place.text()
    return [count.address.decode(), count.words.decode() or "-", statement, name]


def address_lines(addresses: Top, symbols: Optional[Symbols], cycles: int) -> list:
    """The table of the hottest addresses. The statements have a column where there are some."""
    shown = [line._replace(what=count_of(line.what)) for line in addresses.lines()]
    found = statements([(line.what.address, line.what.words) for line in shown])
    has_statements = any(found)
    form = "%s %-17s %-24s %s" if has_statements else "%s %-8s %s%s"
    lines = [row("retired", "cycles", "share", "address, word, statement" if has_statements else "address, word")]
    for line, statement in zip(shown, found):
        text = form % tuple(address_text(line.what, statement, symbols))
        lines.append(row(line.retired, line.cycles, share_of(line.cycles, cycles), text))
    return lines


def time_lines(returns: Returns) -> list:
    """The table of traps and interrupts, with their times until rfid or hrfid."""
    if not returns.times:
        return ["no traps and no interrupts"]
    form = "%10s %10s %10s %10s %10s  %s"
    head = "trap or interrupt, in cycles until rfid or hrfid"
    lines = [form % ("count", "returned", "shortest", "mean", "longest", head)]
    for (kind, vector), times in sorted(returns.times.items(), key=lambda item: (item[0][1], item[0][0].value)):
        numbers = ("-", "-", "-")
        if times.returned:
            numbers = (times.shortest, "%.1f" % (times.total / times.returned), times.longest)
        lines.append(form % (times.count, times.returned, *numbers, vector_text(kind, vector)))
    return lines


def return_lines(returns: Returns) -> list:
    """That table, and behind it what has no return, and the returns that have nothing to come back from."""
    lines = time_lines(returns)
    for kind, vector, cycle in returns.waiting(MOST_WAITING):
        lines.append("no return: %s at cycle %d" % (vector_text(kind, vector), cycle))
    more = returns.waiting_count() - MOST_WAITING
    if more > 0:
        lines.append("no return: %d more" % more)
    if returns.loose:
        lines.append("returns without a trap or an interrupt: %d" % returns.loose)
    return lines


def run(arguments) -> int:
    """The word profile."""
    symbols = symbols_of(arguments)
    trace = Trace(arguments.trace)
    tally, returns = Tally(), Returns()
    for batch in trace.batches():
        tally.add(batch)
        returns.add(batch)
    tally.close(trace.ending.cycle)
    groups, addresses = gathered(tally, symbols, arguments.top)
    cycles = trace.ending.cycle
    lines = ["%d retired in %d cycles, %d of them before the first event" % (groups.retired, cycles, tally.before), ""]
    lines += group_lines(groups, "block of 64 bytes" if symbols is None else "function", cycles)
    lines += ["", *address_lines(addresses, symbols, cycles), "", *return_lines(returns)]
    sys.stdout.write("".join(line + "\n" for line in lines))
    return 0
