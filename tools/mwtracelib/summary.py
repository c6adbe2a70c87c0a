"""A run in a dozen lines, and two more where it stopped at an offence."""

import sys
from dataclasses import dataclass, field
from operator import sub

from mwtracelib.returns import VECTOR_NAMES
from mwtracelib.trace import Batch, Ending, Kind, Offence, Trace

# The length of a prefix and its suffix, as they stand in a line.
PREFIXED_TAIL = 17


@dataclass
class Summary:
    """What is counted of the events."""
    counts: dict = field(default_factory=lambda: dict.fromkeys(Kind, 0))
    prefixed: int = 0
    last_cycle: int = -1
    # the longest stretch without an event: its cycles, and the first of them
    stretch: int = 0
    stretch_at: int = 0
    lowest: bytes = b""
    highest: bytes = b""

    def add(self, batch: Batch) -> None:
        """Counts these events."""
        cycles = [self.last_cycle, *batch.cycles]
        gaps = list(map(sub, batch.cycles, cycles))
        if max(gaps) - 1 > self.stretch:
            self.stretch = max(gaps) - 1
            self.stretch_at = cycles[gaps.index(max(gaps))] + 1
        self.last_cycle = cycles[-1]
        for kind in Kind:
            self.counts[kind] += batch.letters.count(kind.value)
        self.prefixed += list(map(len, batch.tails)).count(PREFIXED_TAIL)
        self.lowest = min(self.lowest or batch.addresses[0], min(batch.addresses))
        self.highest = max(self.highest, max(batch.addresses))

    def close(self, cycles: int) -> None:
        """Takes the cycles behind the last event."""
        gap = cycles - self.last_cycle - 1
        if gap > self.stretch:
            self.stretch, self.stretch_at = gap, self.last_cycle + 1


def stretch_text(summary: Summary) -> str:
    """The longest stretch without an event."""
    if summary.stretch == 0:
        return "none"
    last = summary.stretch_at + summary.stretch - 1
    if summary.stretch == 1:
        return "1 cycle, which is cycle %d" % last
    return "%d cycles, from cycle %d to %d" % (summary.stretch, summary.stretch_at, last)


def reason_of(offence: Offence) -> str:
    """Why an access breaks the update discipline."""
    what, place, *rest = offence.why
    if what == "block":
        missing = "no icbi of it came behind" if rest == ["changed"] else "nothing synchronized behind its icbi"
        return "block %s was stored to, and %s" % (place, missing)
    now = "it has a fault, " + " ".join([rest[-1], VECTOR_NAMES.get(rest[-1], "")]).rstrip()
    if rest[0] != "fault":
        now = "it is at %s" % rest[0]
    return "its page is kept at %s, and by the tables %s" % (place, now)


def offence_lines(ending: Ending) -> list:
    """Where a run stopped at an offence, and why; none where it reached its number of cycles."""
    offence = ending.offence
    if offence is None:
        return []
    place = "the %s at %s, in cycle %d" % (offence.kind, offence.address.decode(), ending.cycle)
    return [("  stopped before", place), ("  because", reason_of(offence))]


def lines_of(summary: Summary, ending: Ending) -> list:
    """The lines, each a name and what is told."""
    events = sum(summary.counts.values())
    rate = "%.4f" % (events / ending.cycle) if ending.cycle else "none"
    addresses = "none"
    if events:
        addresses = "%s to %s" % (summary.lowest.decode(), summary.highest.decode())
    return [
        ("events", events),
        ("  retired", summary.counts[Kind.RETIRE]),
        ("  of them prefixed", summary.prefixed),
        ("  traps", summary.counts[Kind.TRAP]),
        ("  interrupts", summary.counts[Kind.INTERRUPT]),
        ("cycles", ending.cycle),
        ("events a cycle", rate),
        ("longest stretch without", stretch_text(summary)),
        ("addresses", addresses),
        ("bytes the UART sent", len(ending.uart)),
        ("bytes of the dump", sum(len(content) for _, content in ending.dump)),
        ("the end", ending.lines[0].decode()[len("end "):]),
        *offence_lines(ending),
    ]


def run(arguments) -> int:
    """The word summary."""
    trace = Trace(arguments.trace)
    summary = Summary()
    for batch in trace.batches():
        summary.add(batch)
    summary.close(trace.ending.cycle)
    for name, value in lines_of(summary, trace.ending):
        sys.stdout.write("%-24s %s\n" % (name, value))
    return 0
