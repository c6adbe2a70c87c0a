"""How long traps and interrupts took until their rfid or hrfid."""

from array import array
from dataclasses import dataclass

from mwtracelib.trace import RETIRED, Batch, Event, Kind

# rfid and hrfid, and the bits that tell them: the opcode and the extended opcode.
RETURN_BITS = 0xFC0007FE
RETURNS = (0x4C000024, 0x4C000224)
# The words of their opcode begin with 4c to 4f.
FIRST_OF_OPCODE, BEHIND_OPCODE = b"4c", b"5"
# The names of the vectors that the board takes.
VECTOR_NAMES = {
    "0300": "data storage", "0380": "data segment", "0400": "instruction storage", "0480": "instruction segment",
    "0500": "external", "0600": "alignment", "0700": "program", "0800": "FP unavailable",
    "0900": "decrementer", "0c00": "system call", "0f20": "vector unavailable", "0f40": "VSX unavailable"}


@dataclass
class Times:
    """The traps, or the interrupts, of one vector. Times are in cycles."""
    count: int = 0
    returned: int = 0
    total: int = 0
    shortest: int = 0
    longest: int = 0

    def add(self, cycles: int) -> None:
        """Counts one that came back behind so many cycles."""
        self.shortest = min(self.shortest, cycles) if self.returned else cycles
        self.longest = max(self.longest, cycles)
        self.returned += 1
        self.total += cycles


def vector_text(kind: Kind, vector: str) -> str:
    """A vector with its name."""
    return " ".join([kind.name.lower(), vector, VECTOR_NAMES.get(vector, "")]).rstrip()


class Returns:
    """Pairs each rfid or hrfid with the last trap or interrupt that has none yet, as brackets are paired."""

    def __init__(self):
        # by kind and vector
        self.times: dict = {}
        # those that wait for their return, the last one at the end: cycles, vectors, and a 1 for each trap
        self._cycles = array("Q")
        self._vectors = array("H")
        self._traps = array("B")
        # returns that had nothing to come back from
        self.loose = 0

    def add(self, batch: Batch) -> None:
        """Takes these events."""
        places = {place for place, tail in enumerate(batch.tails) if FIRST_OF_OPCODE <= tail < BEHIND_OPCODE}
        if batch.letters.count(RETIRED) < len(batch.letters):
            places.update(place for place, letter in enumerate(batch.letters) if letter != RETIRED)
        for place in sorted(places):
            event = batch.event(place)
            if event.letter != RETIRED:
                self._take(event)
            elif int(event.tail, 16) & RETURN_BITS in RETURNS:
                self._come_back(event.cycle)

    def _take(self, event: Event) -> None:
        kind, vector = Kind(event.letter), event.tail.decode()
        self.times.setdefault((kind, vector), Times()).count += 1
        self._cycles.append(event.cycle)
        self._vectors.append(int(vector, 16))
        self._traps.append(kind is Kind.TRAP)

    def _come_back(self, cycle: int) -> None:
        if not self._cycles:
            self.loose += 1
            return
        began = self._cycles.pop()
        kind = Kind.TRAP if self._traps.pop() else Kind.INTERRUPT
        self.times[kind, "%04x" % self._vectors.pop()].add(cycle - began)

    def waiting(self, most: int) -> list:
        """The first of those without a return: the kind, vector and cycle of each."""
        found = []
        for cycle, vector, is_trap in zip(self._cycles[:most], self._vectors, self._traps):
            found.append((Kind.TRAP if is_trap else Kind.INTERRUPT, "%04x" % vector, cycle))
        return found

    def waiting_count(self) -> int:
        """How many have no return."""
        return len(self._cycles)
