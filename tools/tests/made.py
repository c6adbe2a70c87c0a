"""Traces and ELF files that are made for a test or a measurement."""

import struct

REGISTERS = ["r%d" % number for number in range(32)] + (
    "cr xer lr ctr tar cia msr srr0 srr1 hsrr0 hsrr1 dar dsisr dec pidr "
    "sprg0 sprg1 sprg2 sprg3 hsprg0 hsprg1 prtbl").split()
SHORT_REGISTERS = ("cr", "dsisr", "dec", "pidr")


def ending(end, changed=None, uart="-", dump=()):
    """The text behind the events: all registers are 0 but the changed ones."""
    values = changed or {}
    lines = [end]
    for name in REGISTERS:
        digits = 8 if name in SHORT_REGISTERS else 16
        lines.append("%s %0*x" % (name, digits, values.get(name, 0)))
    return "".join(line + "\n" for line in [*lines, "uart " + uart, *dump])


def trace(events, end, **rest):
    """The text of a run with these lines of events."""
    return "".join(event + "\n" for event in events) + ending(end, **rest)


class StringTable:
    """Names, each behind a zero byte, and where each one stands."""

    def __init__(self):
        self.content = b"\0"

    def add(self, name):
        """Adds a name and gives its place."""
        place = len(self.content)
        self.content += name.encode() + b"\0"
        return place


def elf(symbols, order="<", machine=21, extra_sections=()):
    """An ELF file of 64 bits with a symbol table: (name, address, size, type, binding, section) of each symbol."""
    names, strings = StringTable(), StringTable()
    table = bytes(24)
    for name, address, size, kind, binding, section in symbols:
        table += struct.pack(order + "IBBHQQ", strings.add(name), binding << 4 | kind, 0, section, address, size)
    # name, type, content, link and size of an entry
    sections = [(0, 0, b"", 0, 0), (names.add(".text"), 1, bytes(16), 0, 0)]
    sections += [(names.add(name), 1, content, 0, 0) for name, content in extra_sections]
    if symbols:
        sections.append((names.add(".symtab"), 2, table, len(sections) + 1, 24))
        sections.append((names.add(".strtab"), 3, strings.content, 0, 0))
    place = names.add(".shstrtab")
    sections.append((place, 3, names.content, 0, 0))
    content, headers = b"", b""
    for name, kind, part, link, entry_size in sections:
        headers += struct.pack(
            order + "IIQQQQIIQQ", name, kind, 0, 0, 64 + len(content), len(part), link, 0, 1, entry_size)
        content += part
    start = b"\x7fELF" + bytes([2, 1 if order == "<" else 2, 1]) + bytes(9)
    start += struct.pack(order + "HHIQQQIHHHHHH", 2, machine, 1, 0, 0, 64 + len(content), 0, 64, 56, 0, 64,
                         len(sections), len(sections) - 1)
    return start + content + headers


# The kernel of the made run stands here, its user's program at 0.
KERNEL = 0xC000000000000000
FUNCTIONS, FUNCTION_SIZE = 2_000, 256


def long_elf():
    """An ELF file with the functions of a long made run."""
    symbols = [("user_%d" % number, number * FUNCTION_SIZE, FUNCTION_SIZE, 2, 1, 1) for number in range(FUNCTIONS)]
    symbols += [("kernel_%d" % number, KERNEL + number * FUNCTION_SIZE, 0, 2, 0, 1) for number in range(FUNCTIONS)]
    return elf(symbols)


def long_events(count):
    """Lines of events: loops in many functions, a prefixed instruction in each, traps, interrupts and their returns."""
    cycle, number = 0, 0
    while number < count:
        function = number // 1_000 * 7 % FUNCTIONS
        base = function * FUNCTION_SIZE
        for step in range(0, 200, 4):
            yield "R %d %016x 38630001" % (cycle, base + step)
            cycle += 1 + (step == 64) * 7
        yield "R %d %016x 04100000 e4a00038" % (cycle, base + 200)
        cycle += 1
        number += 51
        if number % 1_000 < 51:
            yield from kernel_events(cycle, base + 208, function)
            cycle += 60
            number += 42


def kernel_events(cycle, address, function):
    """A trap or an interrupt at an address, its handler of 40 instructions, and its return."""
    kind, vector = (("T", "0c00"), ("I", "0900"), ("T", "0300"), ("I", "0500"))[function % 4]
    yield "%s %d %016x %s" % (kind, cycle, address, vector)
    base = KERNEL + function * FUNCTION_SIZE
    for step in range(40):
        yield "R %d %016x 7c631a14" % (cycle + 10 + step, base + 4 * step)
    yield "R %d %016x 4c000024" % (cycle + 52, base + 160)


def scattered_events(count):
    """Lines of events whose addresses are all over 64 bits, each another one."""
    for cycle in range(count):
        yield "R %d %016x 60000000" % (cycle, cycle * 0x9E3779B97F4A7C15 % (1 << 64) & -4)


def write_long(path, events, count, changed=None):
    """Writes a run of so many of these events to a file."""
    last = 0
    with open(path, "w", encoding="ascii") as file:
        for number, event in enumerate(events):
            if number == count:
                break
            file.write(event + "\n")
            last = int(event.split(" ", 2)[1])
        file.write(ending("end ran %d" % (last + 1), changed=changed, uart="41" * 25_000))
