#!/usr/bin/env python3
"""Draws docs/figures/*.svg from the tables of docs/PERFORMANCE.md.

A table is found by the heading that it stands under and by a cell of its first row. A figure shows
what its table has and nothing else, so that the two cannot disagree. The same tables give the same
bytes.

Rates: one point for each count of backends, and a bar from the columns `least` and `most`, which
belong to the column before them; a column without them is a series too. Columns before `backends`
part the rows into panels, where an empty cell means the one above it. Parts: a bar for each column,
stacked of the rows; the row `in all` ends it, and is their sum.

Usage: bench/plot.py draws them; bench/plot.py --check compares, with status 1 if a figure is
missing, has no table, or is not the one that its table gives
"""
import collections
import math
import pathlib
import sys
from xml.sax.saxutils import escape

TOP = pathlib.Path(__file__).resolve().parent.parent
PAGE = TOP / "docs" / "PERFORMANCE.md"
FOLDER = TOP / "docs" / "figures"

# A figure: its file's name, its table's heading, a word of the table's first row, how it is drawn,
# its title, what its numbers are, and whether they stand on a logarithmic axis.
Figure = collections.namedtuple("Figure", "name heading word draw title unit is_log")
# A panel's series: points of a count of backends, its value, the least and the most (or None).
Series = collections.namedtuple("Series", "name points")
# A scale: from a number to a place, and the numbers that stand beside the axis.
Scale = collections.namedtuple("Scale", "place ticks")
# Where a panel's axes lie.
Box = collections.namedtuple("Box", "left top right bottom")

WIDTH, HEIGHT = 960, 420
INK, PALE, GRID = "#1f2328", "#57606a", "#d8dee4"
# Series are told apart by shape, by dashes and by how dark they are, beside the colour.
COLOURS = ("#0b3d91", "#d97706", "#1a7f37", "#8250df")
DASHES = ("", "6 3", "2 3", "8 3 2 3")
SHAPES = ("M-4 0A4 4 0 1 0 4 0A4 4 0 1 0 -4 0Z", "M-4 -4H4V4H-4Z", "M0 -5L5 4H-5Z",
          "M0 -5L5 0L0 5L-5 0Z")
# What a bar's parts are filled with: a ground, and lines over it in a square of eight.
FILLS = (("#0b3d91", ""), ("#f2b84b", "M0 8L8 0M-2 2L2 -2M6 10L10 6"), ("#ffffff", "M0 4H8"),
         ("#9ec5f4", "M0 0L8 8M6 -2L10 2M-2 6L2 10"), ("#dddddd", "M4 0V8"),
         ("#c8e6c9", "M0 4H8M4 0V8"), ("#ffffff", "M2 2h1M6 6h1"), ("#8c959f", ""),
         ("#f7c6c7", "M0 2H8M0 6H8"), ("#d97706", ""), ("#e6dcf5", "M2 0V8M6 0V8"),
         ("#ffffff", "M0 8L8 0M0 0L8 8"))


def tables_under(text, heading):
    """The tables between this heading and the next one, each a list of rows of cells."""
    _, _, behind = text.partition(f"\n{heading}\n")
    tables, is_within = [], False
    for line in behind.splitlines():
        if line.startswith("#"):
            break
        if line.startswith("|"):
            cells = [cell.strip() for cell in line.strip("|").split("|")]
            tables = tables if is_within else [*tables, []]
            tables[-1].append(cells)
        is_within = line.startswith("|")
    return [[head, *rows] for head, _, *rows in tables]


def table_of(figure, text):
    """The figure's table: its first row, and the others."""
    for head, *rows in tables_under(text, figure.heading):
        if figure.word in head:
            return head, rows
    sys.exit(f"{PAGE}: no table with {figure.word!r} under {figure.heading!r}")


def number(cell):
    """A cell's number, or None of an empty one."""
    return float(cell.replace(",", "")) if cell else None


def panels_of(head, rows):
    """The series of a table of rates by backends, for each panel's heading."""
    key = head.index("backends")
    columns = [at for at in range(key + 1, len(head)) if head[at] not in ("least", "most")]
    panels, named = {}, ""
    for row in rows:
        named = row[0] if key and row[0] else named
        title = f"{named} {head[0]}" if named[:1].isdigit() else named
        series = panels.setdefault(title, [Series(head[at], []) for at in columns])
        for one, at in zip(series, columns):
            span = head[at + 1 : at + 3] == ["least", "most"]
            least, most = map(number, row[at + 1 : at + 3]) if span else (None, None)
            if row[at]:
                one.points.append((int(row[key]), number(row[at]), least, most))
    return panels


def part_bars(head, rows):
    """Bars of a table with a row for each part and a column for each bar. The row `in all` is to be
    the sum of the others."""
    bars = []
    for at in range(1, len(head)):
        parts = [(row[0], number(row[at]) or 0) for row in rows]
        *parts, (_, whole) = parts
        if sum(value for _, value in parts) != whole:
            sys.exit(f"{PAGE}: the parts of {head[at]!r} are not {whole:,.0f}")
        bars.append((head[at], parts))
    return {"": bars}


def linear_scale(most, begin, end, steps):
    """From 0, in steps of 1, 2 or 5 times a power of ten, at most so many of them."""
    power = 10 ** math.floor(math.log10(most / steps))
    step = next(many * power for many in (1, 2, 5, 10) if many * power * steps >= most)
    count = math.ceil(most / step - 1e-9)
    return Scale(lambda value: begin + (end - begin) * value / (count * step),
                 [step * at for at in range(count + 1)])


def logarithmic_scale(least, most, begin, end):
    """Between two numbers of 1, 2 and 5 times powers of ten."""
    steps = [many * 10**power for power in range(9) for many in (1, 2, 5)]
    low = max(at for at, step in enumerate(steps) if step <= least)
    high = min(at for at, step in enumerate(steps) if step >= most)
    span = math.log(steps[high] / steps[low])
    return Scale(lambda value: begin + (end - begin) * math.log(value / steps[low]) / span,
                 steps[low : high + 1])


def tick_text(value, ticks):
    """A number beside an axis, with as many places as the axis' steps have."""
    places = max(0, -math.floor(math.log10(ticks[1] - ticks[0]) + 1e-9))
    return f"{value:,.{places}f}"


def text(x, y, words, anchor="start", more=""):
    """Words at a place: their start, middle or end."""
    return f'<text x="{x:.1f}" y="{y:.1f}" text-anchor="{anchor}"{more}>{escape(words)}</text>'


def line(x1, y1, x2, y2, colour, more=""):
    """A line between two places."""
    return f'<path d="M{x1:.1f} {y1:.1f}L{x2:.1f} {y2:.1f}" stroke="{colour}"{more}/>'


def value_axis(box, scale, unit):
    """Lines across a panel, with their numbers, and what these are."""
    parts = []
    for tick in scale.ticks:
        y = scale.place(tick)
        parts.append(line(box.left, y, box.right, y, GRID if tick != scale.ticks[0] else INK))
        parts.append(text(box.left - 8, y + 4, tick_text(tick, scale.ticks), "end"))
    return [*parts, text(box.left, box.top - 12, unit, more=f' fill="{PALE}"')]


def marker(at, x, y):
    """The shape of a series: filled of the first and third, hollow of the others."""
    fill = "#ffffff" if at % 2 else COLOURS[at]
    return (f'<path transform="translate({x:.1f} {y:.1f})" d="{SHAPES[at]}" fill="{fill}"'
            f' stroke="{COLOURS[at]}" stroke-width="1.5"/>')


def draw_series(at, series, count, places, scale):
    """A line through the medians, with a bar and a shape at each; beside the other series' ones."""
    aside = (at - (count - 1) / 2) * 16
    spots = [(places[key] + aside, *rest) for key, *rest in series.points]
    way = "L".join(f"{x:.1f} {scale.place(value):.1f}" for x, value, *_ in spots)
    parts = [f'<path d="M{way}" fill="none" stroke="{COLOURS[at]}" stroke-width="1.5"'
             f' stroke-dasharray="{DASHES[at] or "none"}"/>']
    for x, value, least, most in spots:
        if least is not None:
            low, high = scale.place(least), scale.place(most)
            parts.append(f'<path d="M{x:.1f} {low:.1f}V{high:.1f}M{x - 7:.1f} {low:.1f}h14'
                         f'M{x - 7:.1f} {high:.1f}h14" stroke="{COLOURS[at]}" stroke-width="1.5"/>')
        parts.append(marker(at, x, scale.place(value)))
    return parts


def draw_panel(figure, title, panel, box):
    """A panel of rates: its heading, its axes and its series."""
    points = [point for series in panel for point in series.points]
    values = [value for point in points for value in point[1:] if value is not None]
    if figure.is_log:
        scale = logarithmic_scale(min(values), max(values), box.bottom, box.top)
    else:
        scale = linear_scale(max(values), box.bottom, box.top, 6)
    keys = sorted({point[0] for point in points})
    step = (box.right - box.left) / len(keys)
    places = {key: box.left + step * (at + 0.5) for at, key in enumerate(keys)}
    parts = value_axis(box, scale, figure.unit)
    parts += [text(x, box.bottom + 18, str(key), "middle") for key, x in places.items()]
    parts.append(text((box.left + box.right) / 2, box.bottom + 38, "backends", "middle"))
    parts.append(text(box.left, box.top - 32, title, more=' font-weight="bold"'))
    for at, series in enumerate(panel):
        parts += draw_series(at, series, len(panel), places, scale)
    return parts


def series_legend(panel, y):
    """The series' shapes, dashes and names in a row, and what the bars are."""
    parts, x = [], 24
    for at, series in enumerate(panel):
        dashes = f' stroke-width="1.5" stroke-dasharray="{DASHES[at] or "none"}"'
        parts += [line(x, y - 4, x + 36, y - 4, COLOURS[at], dashes), marker(at, x + 18, y - 4)]
        parts.append(text(x + 44, y, series.name))
        x += 70 + 7 * len(series.name)
    bar = f'<path d="M{x + 8} {y - 12}v16m-7 0h14m-14 -16h14" stroke="{INK}" stroke-width="1.5"/>'
    return [*parts, bar, text(x + 24, y, "median, with the least and the most of the runs")]


def draw_rates(figure, head, rows):
    """A figure of rates by backends: its panels side by side."""
    panels = panels_of(head, rows)
    room = WIDTH / len(panels)
    parts = series_legend(next(iter(panels.values())), 58)
    for at, (title, panel) in enumerate(panels.items()):
        top = 130 if title else 110
        box = Box(at * room + 92, top, (at + 1) * room - 16, HEIGHT - 56)
        parts += draw_panel(figure, title, panel, box)
    return svg(figure.title, HEIGHT, parts)


def draw_bar(box, y, name, parts, scale, names):
    """One stacked bar, with its parts' numbers where they have room, and the sum behind it."""
    drawn, behind = [text(box.left - 8, y + 18, name, "end")], 0
    for part, value in parts:
        left, right = scale.place(behind), scale.place(behind + value)
        at, behind = names.index(part), behind + value
        if value:
            drawn.append(f'<rect x="{left:.1f}" y="{y}" width="{right - left:.1f}" height="26"'
                         f' fill="url(#part{at})" stroke="{INK}"/>')
        words, middle = f"{value:,.0f}", (left + right) / 2
        if right - left > 7 * len(words) + 10:
            half = 3.5 * len(words) + 4
            drawn.append(f'<rect x="{middle - half:.1f}" y="{y + 5}" width="{2 * half:.1f}"'
                         ' height="16" fill="#ffffff"/>')
            drawn.append(text(middle, y + 17, words, "middle"))
    return [*drawn, text(scale.place(behind) + 6, y + 18, f"{behind:,.0f}")]


def draw_stack(figure, title, bars, box, names):
    """A panel of stacked bars, one below the other, over an axis."""
    most = max(sum(value for _, value in parts) for _, parts in bars)
    scale = linear_scale(most, box.left, box.right, 4)
    drawn = [text(box.left, box.top - 10, title, more=' font-weight="bold"')] if title else []
    for tick in scale.ticks:
        x = scale.place(tick)
        drawn.append(line(x, box.top, x, box.bottom, GRID if tick else INK))
        drawn.append(text(x, box.bottom + 18, tick_text(tick, scale.ticks), "middle"))
    drawn.append(text(box.left, box.bottom + 36, figure.unit, more=f' fill="{PALE}"'))
    for at, (name, parts) in enumerate(bars):
        drawn += draw_bar(box, box.top + 8 + 36 * at, name, parts, scale, names)
    return drawn


def part_legend(names):
    """The patterns, and a row of squares filled with them, with the parts' names."""
    drawn, x, y = [], 24, 58
    for at, name in enumerate(names):
        ground, lines = FILLS[at]
        drawn.append(f'<pattern id="part{at}" width="8" height="8" patternUnits="userSpaceOnUse">'
                     f'<rect width="8" height="8" fill="{ground}"/>'
                     f'<path d="{lines or "M0 0"}" stroke="{INK}"/></pattern>')
        if x + 40 + 7 * len(name) > WIDTH:
            x, y = 24, y + 24
        drawn.append(f'<rect x="{x}" y="{y - 13}" width="24" height="16" fill="url(#part{at})"'
                     f' stroke="{INK}"/>{text(x + 32, y, name)}')
        x += 56 + 7 * len(name)
    return drawn, y


def draw_parts(figure, panels):
    """A figure of stacked bars, with at most two panels beside each other."""
    names = list(dict.fromkeys(
        part for bars in panels.values() for _, parts in bars for part, _ in parts))
    drawn, y = part_legend(names)
    across = min(2, len(panels))
    room, below = WIDTH / across, max(map(len, panels.values())) * 36 + 86
    indent = 20 + 7 * max(len(name) for bars in panels.values() for name, _ in bars)
    for at, (title, bars) in enumerate(panels.items()):
        left, top = at % across * room, y + 44 + at // across * below
        box = Box(left + indent, top, left + room - 56, top + 36 * len(bars) + 6)
        drawn += draw_stack(figure, title, bars, box, names)
    return svg(figure.title, box.bottom + 52, drawn)


def draw_table_of_parts(figure, head, rows):
    """A figure of a table that has a row for each part."""
    return draw_parts(figure, part_bars(head, rows))


def svg(title, height, parts):
    """The file: a white ground, the title, and what was drawn."""
    return "\n".join([
        f'<svg xmlns="http://www.w3.org/2000/svg" viewBox="0 0 {WIDTH} {height:.0f}" role="img"'
        ' aria-labelledby="title">',
        f'<title id="title">{escape(title)}</title>',
        f'<rect width="{WIDTH}" height="{height:.0f}" rx="8" fill="#ffffff"/>',
        f'<g font-family="sans-serif" font-size="13" fill="{INK}">',
        text(24, 30, title, more=' font-size="16" font-weight="bold"'),
        *parts, "</g>", "</svg>", ""])


FIGURES = (
    Figure("parts", "## Instructions", "part", draw_table_of_parts,
           "Instructions of a record of 100 bytes, by part", "instructions a record", False),
    Figure("commits-hard", "## Commits of the log that threads share", "PostgreSQL", draw_rates,
           "Hard commits a second, by backends",
           "commits a second (logarithmic)", True),
    Figure("commits-ahead", "## Commits of the log that threads share", "ahead, over files",
           draw_rates, "Commits answered ahead of the disk a second, by backends",
           "commits a second", False),
    Figure("runs", "## Runs of several backends", "memory", draw_rates,
           "Whole runs: records and commits a second, by backends", "a second", False),
    Figure("inserts", "### Inserts side by side", "now", draw_rates,
           "Inserts a second, by backends", "million inserts a second", False),
)


def main():
    """Draws all figures, or compares them with those that are there."""
    page = PAGE.read_text()
    drawn = {f"{it.name}.svg": it.draw(it, *table_of(it, page)).encode() for it in FIGURES}
    if sys.argv[1:] == ["--check"]:
        there = {path.name: path.read_bytes() for path in FOLDER.glob("*.svg")}
        stale = [name for name in sorted({*drawn, *there}) if drawn.get(name) != there.get(name)]
        for name in stale:
            print(f"docs/figures/{name} is not what its table gives")
        sys.exit(bool(stale))
    if sys.argv[1:]:
        sys.exit("Usage: bench/plot.py [--check]")
    FOLDER.mkdir(exist_ok=True)
    for name, content in drawn.items():
        (FOLDER / name).write_bytes(content)


if __name__ == "__main__":
    main()
