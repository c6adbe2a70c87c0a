"""The symbol table of a 64-bit ELF file for Power, in either order of bytes, read by its section headers."""

import struct
from dataclasses import dataclass

from mwtracelib.trace import BadInput

MAGIC = b"\x7fELF"
CLASS_64 = 2
LITTLE, BIG = 1, 2
POWER_64 = 21
SYMBOL_TABLE = 2
# The section numbers of symbols that stand nowhere: undefined, and absolute numbers.
UNDEFINED, ABSOLUTE = 0, 0xFFF1
# The types of symbols: those that name a place, with the rank of each, the most telling first.
PLACE_TYPES = {2: 0, 0: 1, 1: 2}  # function, no type, object
LOCAL = 0

HEADER = "16xHHIQQQIHHHHHH"
SECTION = "IIQQQQIIQQ"
SYMBOL = "IBBHQQ"


@dataclass(frozen=True)
class Section:
    """A section header, as far as it is used."""
    name: int
    kind: int
    offset: int
    size: int
    link: int
    entry_size: int


class Elf:
    """An ELF file's bytes, and how to take numbers out of them."""

    def __init__(self, path: str):
        self.path = path
        try:
            with open(path, "rb") as file:
                self.content = file.read()
        except OSError as error:
            raise BadInput("cannot read %s: %s" % (path, error.strerror)) from error
        if self.content[:4] != MAGIC:
            raise BadInput("%s: not an ELF file" % path)
        order = self.content[5:6]
        if self.content[4:5] != bytes([CLASS_64]) or order not in (bytes([LITTLE]), bytes([BIG])):
            raise BadInput("%s: not a 64-bit ELF file" % path)
        self.order = "<" if order == bytes([LITTLE]) else ">"

    def numbers(self, form: str, at: int) -> tuple:
        """The numbers that stand at a place in this form."""
        try:
            return struct.unpack_from(self.order + form, self.content, at)
        except struct.error as error:
            raise BadInput("%s: the ELF file is cut" % self.path) from error

    def part(self, section: Section) -> bytes:
        """A section's bytes."""
        part = self.content[section.offset:section.offset + section.size]
        if len(part) != section.size:
            raise BadInput("%s: the ELF file is cut" % self.path)
        return part

    def sections(self) -> list:
        """All section headers."""
        header = self.numbers(HEADER, 0)
        machine, at, entry_size, count = header[1], header[5], header[10], header[11]
        if machine != POWER_64:
            raise BadInput("%s: the ELF file isn't for 64-bit Power" % self.path)
        if at and not count:
            # so many that their number stands in the first header's size
            count = self._section(at).size
        if count * max(entry_size, struct.calcsize("<" + SECTION)) > len(self.content):
            raise BadInput("%s: the ELF file is cut" % self.path)
        return [self._section(at + number * entry_size) for number in range(count)]

    def _section(self, at: int) -> Section:
        name, kind, _, _, offset, size, link, _, _, entry_size = self.numbers(SECTION, at)
        return Section(name, kind, offset, size, link, entry_size)

    def name_section(self) -> int:
        """The number of the section that holds the sections' names."""
        return self.numbers(HEADER, 0)[12]


def name_at(names: bytes, at: int) -> str:
    """The name at a place of a string table."""
    end = names.find(b"\0", at)
    return names[at:end if end >= 0 else len(names)].decode("utf-8", "replace")


def symbols_in(elf: Elf, sections: list, table: Section) -> list:
    """The places that a symbol table names: address, rank, name and size of each."""
    size = struct.calcsize("<" + SYMBOL)
    if table.entry_size != size or table.link >= len(sections):
        raise BadInput("%s: the ELF file has a symbol table of another form" % elf.path)
    content, names = elf.part(table), elf.part(sections[table.link])
    form = struct.Struct(elf.order + SYMBOL)
    symbols = []
    for name, info, _, section, address, length in form.iter_unpack(content[:len(content) // size * size]):
        kind, binding = info & 15, info >> 4
        text = name_at(names, name)
        if kind not in PLACE_TYPES or section in (UNDEFINED, ABSOLUTE) or not text:
            continue
        rank = 2 * PLACE_TYPES[kind] + (binding == LOCAL)
        symbols.append((address, rank, text, length))
    return symbols


def read_symbols(path: str) -> tuple:
    """The places that an ELF file names, and whether it has the lines of its source."""
    elf = Elf(path)
    sections = elf.sections()
    symbols = []
    for section in sections:
        if section.kind == SYMBOL_TABLE:
            symbols += symbols_in(elf, sections, section)
    has_lines = False
    if elf.name_section() < len(sections):
        names = elf.part(sections[elf.name_section()])
        has_lines = any(name_at(names, section.name) == ".debug_line" for section in sections)
    return symbols, has_lines
