"""The names of addresses: of an ELF file, or of the text that nm prints."""

from bisect import bisect_right
from typing import NamedTuple, Optional

from mwtracelib.elf import read_symbols
from mwtracelib.source_lines import SourceLines
from mwtracelib.trace import HEX_DIGITS, BadInput

# What stands behind each address of 16 digits.
BEHIND_ALL = b"g"
# nm's letters of symbols that are no places: absolute numbers, debugging, undefined ones.
NO_PLACE = "AaNnUuvw"


class Symbol(NamedTuple):
    """A name of an address. A size of 0 is one that isn't known."""
    address: int
    # of two names of an address the one of the lower rank is told, of two of one rank the first by letters
    rank: int
    name: str
    size: int


class Place(NamedTuple):
    """What is known of an address."""
    symbol: Symbol
    offset: int

    def text(self) -> str:
        """The name and the offset."""
        return "%s+0x%x" % (self.symbol.name, self.offset)


class Symbols:
    """The symbols of a program, and the lines of its source where they are known."""

    def __init__(self, symbols: list, lines: Optional[SourceLines] = None):
        first: dict = {}
        for symbol in sorted(symbols):
            first.setdefault(symbol.address, symbol)
        self.lines = lines
        self._symbols = list(first.values())
        self._addresses = list(first)

    def place(self, address: bytes) -> Optional[Place]:
        """The symbol at or below an address of 16 digits, unless the address is behind its end."""
        number = int(address, 16)
        index = bisect_right(self._addresses, number) - 1
        if index < 0:
            return None
        symbol = self._symbols[index]
        offset = number - symbol.address
        if symbol.size and offset >= symbol.size:
            return None
        return Place(symbol, offset)

    def bound(self, address: bytes) -> bytes:
        """The first address behind this one that can have another symbol, or none."""
        number = int(address, 16)
        index = bisect_right(self._addresses, number)
        bound = self._addresses[index] if index < len(self._addresses) else 1 << 64
        place = self.place(address)
        if place is not None and place.symbol.size:
            bound = min(bound, place.symbol.address + place.symbol.size)
        return digits_of(bound)


def digits_of(number: int) -> bytes:
    """The 16 digits of an address, or what stands behind all of them where there is no such address."""
    return b"%016x" % number if number < 1 << 64 else BEHIND_ALL


def symbols_of_nm(path: str) -> Symbols:
    """The symbols of a text as nm prints it: an address, perhaps a size, a letter and a name in each line."""
    try:
        with open(path, encoding="utf-8", errors="replace") as file:
            lines = file.read().splitlines()
    except OSError as error:
        raise BadInput("cannot read %s: %s" % (path, error.strerror)) from error
    symbols = []
    for number, line in enumerate(lines, 1):
        fields = line.split()
        if not fields or (len(fields) == 2 and len(fields[0]) == 1):
            continue
        symbol = symbol_of_nm(fields)
        if symbol is None:
            raise BadInput("%s:%d: not a line that nm prints" % (path, number))
        if fields[-2] not in NO_PLACE:
            symbols.append(symbol)
    if not symbols:
        raise BadInput("%s: no symbols" % path)
    return Symbols(symbols)


def symbol_of_nm(fields: list) -> Optional[Symbol]:
    """The symbol of a line's fields, or None where they are no such line."""
    if len(fields) not in (3, 4) or len(fields[-2]) != 1:
        return None
    digits = HEX_DIGITS.decode()
    if any(number.strip(digits) or len(number) > 16 for number in fields[:-2]):
        return None
    size = int(fields[1], 16) if len(fields) == 4 else 0
    is_local = fields[-2].islower()
    return Symbol(int(fields[0], 16), int(is_local), fields[-1], size)


def symbols_of_elf(path: str) -> Symbols:
    """The symbols of an ELF file, and its lines where it has some and addr2line is installed."""
    found, has_lines = read_symbols(path)
    if not found:
        raise BadInput("%s: no symbols" % path)
    lines = SourceLines.started(path) if has_lines else None
    return Symbols([Symbol(*symbol) for symbol in found], lines)


def symbols_of(arguments) -> Optional[Symbols]:
    """The symbols that a command's words name, or None where they name none."""
    if arguments.elf is not None:
        return symbols_of_elf(arguments.elf)
    if arguments.nm is not None:
        return symbols_of_nm(arguments.nm)
    return None
