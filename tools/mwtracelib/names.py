"""Each event, and the access of an offence, with the name of its address."""

import sys
from itertools import chain

from mwtracelib.symbols import Symbols, symbols_of
from mwtracelib.trace import Batch, Ending, Trace


def name_of(symbols: Symbols, address: bytes) -> bytes:
    """What stands behind the event of this address: its name, and its file and line where they are known."""
    place = symbols.place(address)
    name = b" -" if place is None else b" " + place.text().encode()
    if symbols.lines is None:
        return name
    line = symbols.lines.at(address)
    return name + b" " + line if line else name


def named(symbols: Symbols, batch: Batch) -> bytes:
    """The lines of these events with their names."""
    addresses = set(batch.addresses)
    if symbols.lines is not None:
        symbols.lines.learn(addresses)
    behind = {address: name_of(symbols, address) + b"\n" for address in addresses}
    return b"".join(chain.from_iterable(zip(batch.lines, map(behind.get, batch.addresses))))


def named_end(symbols: Symbols, ending: Ending) -> bytes:
    """The end line. Where it tells an offence, the name of its access stands behind it."""
    line = ending.lines[0]
    if ending.offence is not None:
        address = ending.offence.address
        if symbols.lines is not None:
            symbols.lines.learn({address})
        line += name_of(symbols, address)
    return line + b"\n"


def run(arguments) -> int:
    """The word names."""
    symbols = symbols_of(arguments)
    trace = Trace(arguments.trace)
    for batch in trace.batches():
        sys.stdout.buffer.write(named(symbols, batch))
        sys.stdout.buffer.flush()
    sys.stdout.buffer.write(named_end(symbols, trace.ending))
    sys.stdout.buffer.write(b"".join(line + b"\n" for line in trace.ending.lines[1:]))
    if symbols.lines is not None:
        symbols.lines.close()
    return 0
