"""A run as one SVG: addresses over cycles, traps and interrupts, events a cycle, and what the UART sent."""

import os
from dataclasses import dataclass
from typing import Optional

from mwtracelib import drawing
from mwtracelib.drawing import CHARACTER, WIDTH, cut, line, rectangle, text
from mwtracelib.grid import Grid
from mwtracelib.returns import vector_text
from mwtracelib.symbols import symbols_of
from mwtracelib.trace import BadInput, Ending, Kind, Trace

LARGEST_FILE = 2_000_000
LEFT, PLOT = 240, 910
# The height of all rows together, and the most of one.
ROWS_HEIGHT, MOST_ROW = 360, 18
LANE, MOST_LANES = 18, 8
RATE_HEIGHT = 70
# Labels that are nearer to each other would touch.
LABEL_DISTANCE = 14
LABEL_CHARACTERS = int((LEFT - 20) / CHARACTER)
TEXT_CHARACTERS = int((WIDTH - 40) / CHARACTER)
MOST_TICKS = 9


@dataclass(frozen=True)
class Band:
    """Rows that follow each other and belong to one function, or one row where there are no names."""
    label: str
    first: int
    count: int
    retired: int


@dataclass(frozen=True)
class View:
    """What is drawn."""
    name: str
    grid: Grid
    ending: Ending
    has_names: bool

    def columns(self) -> int:
        """The columns that are drawn."""
        return self.grid.column_count(self.ending.cycle)

    def x(self, column: float) -> float:
        """Where a column begins."""
        return LEFT + PLOT * column / self.columns()

    def row_height(self) -> int:
        """The height of a row, a whole number, so that all rows look alike."""
        return max(1, min(MOST_ROW, ROWS_HEIGHT // max(1, len(self.grid.rows))))


def bands_of(view: View) -> list:
    """The bands in the order of addresses."""
    bands = []
    for place, (number, row) in enumerate(sorted(view.grid.rows.items())):
        name: Optional[str] = row.name()
        label = name if name is not None else "0x%x" % (number << view.grid.row_shift)
        retired = sum(row.counts)
        if name is not None and bands and bands[-1].label == label:
            last = bands.pop()
            bands.append(Band(label, last.first, last.count + 1, last.retired + retired))
        else:
            bands.append(Band(label, place, 1, retired))
    return bands


def placed_labels(bands: list, row_height: int) -> list:
    """The middles of the bands with their labels, the hottest first, as far as no two touch."""
    placed = []
    for band in sorted(bands, key=lambda band: (-band.retired, band.first)):
        middle = (band.first + band.count / 2) * row_height
        if all(abs(middle - other) >= LABEL_DISTANCE for other, _ in placed):
            placed.append((middle, band.label))
    return sorted(placed)


def draw_rows(view: View, top: float) -> tuple:
    """Addresses over cycles, and where that ends."""
    height = view.row_height()
    bands = bands_of(view)
    bottom = top + max(LABEL_DISTANCE, height * len(view.grid.rows))
    parts = []
    for number, band in enumerate(bands):
        if number % 2 == 0:
            parts.append(rectangle(LEFT, top + band.first * height, PLOT, band.count * height, "band"))
    for middle, label in placed_labels(bands, height):
        parts.append(text(LEFT - 8, top + middle + 4, cut(label, LABEL_CHARACTERS), "end", label))
    rows = [row.counts[:view.columns()] for _, row in sorted(view.grid.rows.items())]
    if rows:
        place = "translate(%d %s) scale(%s %d)" % (
            LEFT, drawing.number(top + height / 2), repr(round(PLOT / view.columns(), 6)), height)
        parts.append(drawing.cells(rows, max(max(row) for row in rows), place))
    else:
        parts.append(text(LEFT + 8, top + 11, "nothing retired", "soft"))
    parts += [line(LEFT, top, LEFT, bottom), line(LEFT, bottom, LEFT + PLOT, bottom)]
    return parts, bottom


def lanes_of(view: View) -> list:
    """The vectors with most traps or interrupts, in the order of their numbers: kind, vector and counts by column."""
    most = sorted(view.grid.marks.items(), key=lambda item: (-sum(item[1].values()), item[0][1]))[:MOST_LANES]
    most.sort(key=lambda item: (item[0][1], item[0][0].value))
    return [(kind, vector.decode(), counts) for (kind, vector), counts in most]


def draw_lanes(view: View, top: float) -> tuple:
    """A lane of marks for each vector, and where the last one ends."""
    parts = []
    for kind, vector, counts in lanes_of(view):
        whole = "%s: %s" % (vector_text(kind, vector), format(sum(counts.values()), ","))
        # T or I, as in the printed run, where the whole has the word
        label = "%s %s" % (kind.value.decode(), whole.split(" ", 1)[1])
        parts.append(text(LEFT - 8, top + LANE - 5, cut(label, LABEL_CHARACTERS), "end", whole))
        marks = "".join("M%s %sv%d" % (drawing.number(view.x(column + 0.5)), drawing.number(top + 3), LANE - 6)
                        for column in sorted(counts))
        parts.append('<path class="%s" d="%s"/>' % (kind.name.lower(), marks))
        top += LANE
        parts.append(line(LEFT, top, LEFT + PLOT, top))
    left_out = len(view.grid.marks) - MOST_LANES
    if left_out > 0:
        parts.append(text(LEFT - 8, top + LANE - 5, "%d vectors more" % left_out, "end soft"))
        top += LANE
    return parts, top


def draw_rate(view: View, top: float) -> tuple:
    """Events a cycle, and where that ends."""
    bottom = top + RATE_HEIGHT
    width = 1 << view.grid.column_shift
    columns, cycles = view.columns(), view.ending.cycle
    rates = []
    for column, count in enumerate(view.grid.events[:columns]):
        rates.append(count / max(1, min(width, cycles - column * width)))
    most = max(1.0, *rates)
    steps = ["M%d %s" % (LEFT, drawing.number(bottom))]
    for column, rate in enumerate(rates):
        y, x = bottom - RATE_HEIGHT * rate / most, view.x(column + 1)
        steps.append("V%sH%s" % (drawing.number(y), drawing.number(x)))
    steps.append("V%sZ" % drawing.number(bottom))
    parts = [
        '<path class="rate" d="%s"/>' % "".join(steps), line(LEFT, top, LEFT, bottom),
        line(LEFT, bottom, LEFT + PLOT, bottom), text(LEFT - 8, top + 9, drawing.number(most), "end"),
        text(LEFT - 8, top + RATE_HEIGHT / 2 + 4, "events a cycle", "end soft"), text(LEFT - 8, bottom, "0", "end")]
    return parts, bottom


def tick_step(cycles: int) -> int:
    """The distance of the axis's ticks: 1, 2 or 5 with zeros behind it, so that no two labels touch."""
    label = CHARACTER * (len(format(cycles, ",")) + 2)
    most = max(1, min(MOST_TICKS, int(PLOT / label)))
    step = 1
    while True:
        for factor in (1, 2, 5):
            if cycles <= most * step * factor:
                return step * factor
        step *= 10


def draw_axis(view: View, top: float) -> tuple:
    """The axis of cycles, and where that ends."""
    width = 1 << view.grid.column_shift
    cycles = view.columns() * width
    parts = []
    for cycle in range(0, cycles + 1, tick_step(cycles)):
        x, label = view.x(cycle / width), format(cycle, ",")
        is_wide = x + CHARACTER * len(label) / 2 > WIDTH
        parts += [line(x, top, x, top + 5), text(x, top + 18, label, "end" if is_wide else "middle")]
    parts.append(text(LEFT + PLOT / 2, top + 36, "cycles", "middle soft"))
    return parts, top + 36


def shown_byte(byte: int) -> str:
    """A byte that was sent, as it is shown in a line of text."""
    if byte == ord("\n"):
        return "\\n"
    if byte == ord("\\"):
        return "\\\\"
    return chr(byte) if 32 <= byte < 127 else "\\x%02x" % byte


def draw_uart(view: View, top: float) -> tuple:
    """What the UART sent as a line of text, and where that ends."""
    sent = view.ending.uart
    head = "the UART sent %s bytes%s" % (format(len(sent), ","), ": " if sent else "")
    shown = "".join(shown_byte(byte) for byte in sent[:TEXT_CHARACTERS])
    return [text(20, top, cut(head + shown, TEXT_CHARACTERS))], top


def legend_entries(view: View) -> list:
    """What is explained: the class of each sign, and its text."""
    most = max((max(row.counts) for row in view.grid.rows.values()), default=0)
    entries = []
    for level, least, largest in drawing.level_ranges(most):
        counts = format(least, ",")
        if least < largest:
            counts += " to " + format(largest, ",")
        entries.append(("level%d" % level, counts))
    for kind in (Kind.TRAP, Kind.INTERRUPT):
        if any(key[0] is kind for key in view.grid.marks):
            entries.append((kind.name.lower(), "%s: %s" % (kind.value.decode(), kind.name.lower())))
    return entries


def draw_legend(view: View, y: float) -> list:
    """What the colours mean."""
    head = "retired in a cell:"
    entries = legend_entries(view)
    parts = [text(20, y, head, "soft")]
    x = 20 + CHARACTER * (len(head) + 1)
    for classes, label in entries:
        if classes.startswith("level"):
            sign = '<path class="%s" stroke-width="12" d="M%s %sh12"/>'
            sign %= classes, drawing.number(x), drawing.number(y - 4)
        else:
            sign = '<path class="%s" d="M%s %sv12"/>'
            sign %= classes, drawing.number(x + 6), drawing.number(y - 10)
        parts += [sign, text(x + 18, y, label)]
        x += 18 + CHARACTER * (len(label) + 2)
    return parts


def cell_text(view: View) -> str:
    """The size of a cell."""
    cycles = 1 << view.grid.column_shift
    return "a cell is %s bytes and %s cycle%s" % (
        format(1 << view.grid.row_shift, ","), format(cycles, ","), "s" if cycles > 1 else "")


def drawn(view: View) -> str:
    """The text of the picture."""
    title = "A run of %s cycles" % format(view.ending.cycle, ",")
    what = "addresses by function, the low ones above" if view.has_names else "addresses, the low ones above"
    told = "%s: %s events, %s" % (view.name, format(sum(view.grid.events), ","), view.ending.lines[0].decode())
    parts = [text(20, 32, title, "title"), text(20, 54, cut(told, TEXT_CHARACTERS), "soft", told),
             *draw_legend(view, 80), text(LEFT, 106, "%s; %s" % (what, cell_text(view)), "soft")]
    at = 114
    for draw, gap in ((draw_rows, 0), (draw_lanes, 14), (draw_rate, 0), (draw_axis, 28), (draw_uart, 20)):
        more, at = draw(view, at)
        parts += more
        at += gap
    return drawing.document(at, title, parts)


def run(arguments) -> int:
    """The word picture."""
    symbols = symbols_of(arguments)
    trace = Trace(arguments.trace)
    grid = Grid(symbols)
    for batch in trace.batches():
        grid.add(batch)
    grid.close(trace.ending.cycle)
    view = View(os.path.basename(trace.name), grid, trace.ending, symbols is not None)
    picture = drawn(view).encode()
    while len(picture) > LARGEST_FILE:
        grid.merge_columns()
        picture = drawn(view).encode()
    try:
        with open(arguments.output, "wb") as file:
            file.write(picture)
    except OSError as error:
        raise BadInput("cannot write %s: %s" % (arguments.output, error.strerror)) from error
    return 0
