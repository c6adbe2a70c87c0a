"""SVG: texts, lines and cells, in colours that follow the reader's setting."""

from typing import Iterable

WIDTH = 1200
# A monospaced text of this size, whose characters have this width, so that what fits is known.
SIZE = 12
CHARACTER = 7.3
LEVELS = 5

STYLE = """\
svg { --page: #ffffff; --ink: #1f2328; --soft: #57606a; --line: #c4ccd4; --band: #f3f5f7;
  --level1: #c3dcf3; --level2: #92c3e8; --level3: #559fd6; --level4: #2571b2; --level5: #0b4177;
  --trap: #c62828; --interrupt: #7b3fc4; --rate: #2571b2; background: var(--page); }
@media (prefers-color-scheme: dark) {
  svg { --page: #0d1117; --ink: #e6edf3; --soft: #9aa4af; --line: #3d444d; --band: #161b22;
    --level1: #17395c; --level2: #1f5a92; --level3: #3484c8; --level4: #6fb4ee; --level5: #cbe6ff;
    --trap: #ff7b72; --interrupt: #d2a8ff; --rate: #6fb4ee; } }
text { font: %dpx ui-monospace, "DejaVu Sans Mono", Menlo, Consolas, monospace; fill: var(--ink); white-space: pre; }
.title { font-size: 18px; font-weight: bold; } .soft { fill: var(--soft); }
.end { text-anchor: end; } .middle { text-anchor: middle; }
.page { fill: var(--page); } .band { fill: var(--band); } .line { stroke: var(--line); fill: none; }
.cells path { fill: none; stroke-width: 1; shape-rendering: crispEdges; }
.level1 { stroke: var(--level1); } .level2 { stroke: var(--level2); } .level3 { stroke: var(--level3); }
.level4 { stroke: var(--level4); } .level5 { stroke: var(--level5); }
.trap { stroke: var(--trap); stroke-width: 2; } .interrupt { stroke: var(--interrupt); stroke-width: 2; }
.rate { fill: var(--rate); fill-opacity: 0.35; stroke: var(--rate); }
""" % SIZE


def escaped(text: str) -> str:
    """A text as it stands in XML."""
    kept = "".join(character if character.isprintable() else "\ufffd" for character in text)
    return kept.replace("&", "&amp;").replace("<", "&lt;").replace(">", "&gt;").replace('"', "&quot;")


def cut(text: str, most: int) -> str:
    """A text of at most so many characters; where some are left out, a sign says so."""
    return text if len(text) <= most else text[:most - 1] + "\u2026"


def number(value: float) -> str:
    """A coordinate, as short as can be."""
    return ("%.2f" % value).rstrip("0").rstrip(".")


def text(x: float, y: float, content: str, classes: str = "", whole: str = "") -> str:
    """A text at a place. Where it was cut, the whole of it is shown to who points at it."""
    title = "<title>%s</title>" % escaped(whole) if whole and whole != content else ""
    mark = ' class="%s"' % classes if classes else ""
    return '<text x="%s" y="%s"%s>%s%s</text>' % (number(x), number(y), mark, title, escaped(content))


def line(x1: float, y1: float, x2: float, y2: float, classes: str = "line") -> str:
    """A line from one place to another."""
    return '<path class="%s" d="M%s %sL%s %s"/>' % (classes, number(x1), number(y1), number(x2), number(y2))


def rectangle(x: float, y: float, width: float, height: float, classes: str) -> str:
    """A filled rectangle."""
    return '<rect class="%s" x="%s" y="%s" width="%s" height="%s"/>' % (
        classes, number(x), number(y), number(width), number(height))


def level_of(count: int, most: int) -> int:
    """The level of a count: the highest from half of the most on, each lower one from half of that on."""
    level = LEVELS
    while level > 1 and count * 2 < most:
        count *= 2
        level -= 1
    return level


def level_ranges(most: int) -> list:
    """The levels that occur, each with its least and its largest count."""
    ranges = []
    largest = most
    for level in range(LEVELS, 0, -1):
        least = 1 if level == 1 else -(-most >> (LEVELS - level + 1))
        if 0 < least <= largest:
            ranges.append((level, least, largest))
        largest = min(largest, least - 1)
    return ranges[::-1]


def cells(rows: Iterable, most: int, place: str) -> str:
    """The cells of rows of counts, a path for each level; cells of one level that touch in a row are one stroke."""
    paths = {level: [] for level in range(1, LEVELS + 1)}
    levels = {0: 0}
    for row, counts in enumerate(rows):
        begin, current = 0, 0
        for column, count in enumerate(counts):
            level = levels.get(count)
            if level is None:
                level = levels[count] = level_of(count, most)
            if level != current:
                if current:
                    paths[current].append("M%d %dh%d" % (begin, row, column - begin))
                begin, current = column, level
        if current:
            paths[current].append("M%d %dh%d" % (begin, row, len(counts) - begin))
    drawn = "".join(
        '<path class="level%d" d="%s"/>\n' % (level, "".join(path)) for level, path in paths.items() if path)
    return '<g class="cells" transform="%s">\n%s</g>' % (place, drawn)


def document(height: float, title: str, parts: list) -> str:
    """The whole text of a picture."""
    head = '<svg xmlns="http://www.w3.org/2000/svg" width="%d" height="%s" viewBox="0 0 %d %s" role="img">' % (
        WIDTH, number(height), WIDTH, number(height))
    page = rectangle(0, 0, WIDTH, height, "page")
    name = "<title>%s</title>" % escaped(title)
    return "\n".join([head, name, "<style>\n%s</style>" % STYLE, page, *parts, "</svg>", ""])
