"""Draws lines over two logarithmic axes, several panels in one picture, as an SVG text that needs nothing else."""
import collections
import html
import math

# Colours that are told apart without red and green (Okabe and Ito), each with a mark of its own.
COLOURS = "#0072b2 #d55e00 #009e73 #cc79a7 #e69f00 #56b4e9 #000000".split()
MARKS = "circle square triangle diamond cross ring dash".split()
PATHS = {"square": "M-4-4h8v8h-8z", "triangle": "M0-5l5 9h-10z", "diamond": "M0-6l6 6l-6 6l-6-6z", "cross": "M-4-4l8 8M4-4l-8 8", "dash": "M-6 0h12"}
INK, PALE, GROUND = "#222222", "#d9d9d9", "#ffffff"
FONT = "font-family='DejaVu Sans, Verdana, Arial, sans-serif'"
WIDTH, HEIGHT, LEFT, TOP, RIGHT, BOTTOM = 400, 300, 78, 34, 16, 52
HEAD = 86

# A point has a place on the axis from left to right, its median, and the least and the greatest that was measured.
Point = collections.namedtuple("Point", "x y low high")
# A panel has a title, the labels of its axes, points by the name of their line, and lines of text on what has no point.
Panel = collections.namedtuple("Panel", "title across up lines notes")


def text(x, y, words, size=12, anchor="start", more=""):
    return f"<text x='{x:.1f}' y='{y:.1f}' font-size='{size}' text-anchor='{anchor}' fill='{INK}' {FONT} {more}>{html.escape(words)}</text>"


def stroke(x, y, to_x, to_y, colour, width=1.0):
    return f"<line x1='{x:.1f}' y1='{y:.1f}' x2='{to_x:.1f}' y2='{to_y:.1f}' stroke='{colour}' stroke-width='{width}'/>"


def mark(kind, x, y, colour):
    """A line's mark at a point."""
    if kind in PATHS:
        return f"<path d='{PATHS[kind]}' transform='translate({x:.1f} {y:.1f})' fill='{colour}' stroke='{colour}' stroke-width='2'/>"
    return f"<circle cx='{x:.1f}' cy='{y:.1f}' r='4.5' fill='{GROUND if kind == 'ring' else colour}' stroke='{colour}' stroke-width='2'/>"


def spelled(value):
    """A number as an axis has it."""
    return f"{value:,.0f}" if value >= 10 else f"{value:.6f}".rstrip("0").rstrip(".")


def ticks(low, high):
    """Round numbers on a logarithmic axis, from one that is not above the least to one that is not below the greatest."""
    steps = (1, 1.5, 2, 3, 4, 5, 7) if high / low < 5 else (1, 2, 5) if high / low < 1000 else (1,)
    first, last = math.floor(math.log10(low)), math.ceil(math.log10(high))
    every = [step * 10.0**power for power in range(first, last + 1) for step in steps]
    below, above = max(it for it in every if it <= low * 1.0001), min(it for it in every if it >= high * 0.9999)
    if below == above:
        below, above = below / 2, above * 2
    return [below] + [it for it in every if below < it < above] + [above]


class Axis:
    """Where numbers stand between two ends, by their logarithms."""

    def __init__(self, low, high, start, end):
        self.low, self.high, self.start, self.end = math.log(low), math.log(high), start, end

    def at(self, value):
        return self.start + (math.log(value) - self.low) / (self.high - self.low) * (self.end - self.start)


def panel_text(panel, left, top, styles):
    """A panel with its upper left corner there; without a point it has a title and its notes alone."""
    head = [text(left + LEFT, top + TOP - 12, panel.title, 13, more="font-weight='bold'")]
    head += [text(left + LEFT + 12, top + TOP + 14 + 15 * at, note, 11) for at, note in enumerate(panel.notes)]
    return head + (axes_and_lines(panel, left, top, styles) if panel.lines else [])


def axes_and_lines(panel, left, top, styles):
    points = [point for line in panel.lines.values() for point in line]
    xs = sorted({point.x for point in points})
    rows = ticks(min(point.low for point in points), max(point.high for point in points))
    across = Axis(xs[0] / 1.3, xs[-1] * 1.3, left + LEFT, left + WIDTH - RIGHT)
    up = Axis(rows[0], rows[-1], top + HEIGHT - BOTTOM, top + TOP)
    drawn = []
    for row in rows:
        drawn.append(stroke(across.start, up.at(row), across.end, up.at(row), PALE))
        drawn.append(text(across.start - 7, up.at(row) + 4, spelled(row), anchor="end"))
    for x in xs:
        drawn.append(stroke(across.at(x), up.start, across.at(x), up.start + 5, INK))
        drawn.append(text(across.at(x), up.start + 19, spelled(x), anchor="middle"))
    drawn.append(stroke(across.start, up.start, across.end, up.start, INK))
    drawn.append(stroke(across.start, up.start, across.start, up.end, INK))
    drawn.append(text((across.start + across.end) / 2, up.start + 40, panel.across, anchor="middle"))
    middle = (up.start + up.end) / 2
    drawn.append(text(left + 16, middle, panel.up, anchor="middle", more=f"transform='rotate(-90 {left + 16} {middle:.1f})'"))
    for name, line in panel.lines.items():
        drawn += line_text(sorted(line), across, up, *styles[name])
    return drawn


def line_text(line, across, up, colour, kind):
    """A line through its points, each with its mark and a bar from the least to the greatest."""
    places = [(across.at(point.x), up.at(point.y)) for point in line]
    drawn = [stroke(x, up.at(point.low), x, up.at(point.high), colour, 1.5) for (x, _), point in zip(places, line)]
    joined = " ".join(f"{x:.1f},{y:.1f}" for x, y in places)
    drawn.append(f"<polyline points='{joined}' fill='none' stroke='{colour}' stroke-width='2'/>")
    return drawn + [mark(kind, x, y, colour) for x, y in places]


def picture(title, notes, rows):
    """A whole picture: panels in rows under a title, two lines of notes and a legend of all names of lines."""
    names = list(dict.fromkeys(name for row in rows for panel in row for name in panel.lines))
    if len(names) > len(COLOURS):
        raise ValueError(f"at most {len(COLOURS)} lines")
    styles = dict(zip(names, zip(COLOURS, MARKS)))
    width, height = max(map(len, rows)) * WIDTH + 10, HEAD + 30 + len(rows) * HEIGHT
    drawn = [f"<rect width='{width}' height='{height}' fill='{GROUND}'/>", text(16, 28, title, 17, more="font-weight='bold'")]
    drawn += [text(16, 50 + 17 * at, note) for at, note in enumerate(notes)]
    for at, (name, (colour, kind)) in enumerate(styles.items()):
        x, y = 30 + at * 110, HEAD + 14
        drawn += [stroke(x - 14, y, x + 14, y, colour, 2), mark(kind, x, y, colour), text(x + 22, y + 4, name)]
    for down, row in enumerate(rows):
        for over, panel in enumerate(row):
            drawn += panel_text(panel, over * WIDTH, HEAD + 26 + down * HEIGHT, styles)
    head = f"<svg xmlns='http://www.w3.org/2000/svg' width='{width}' height='{height}' viewBox='0 0 {width} {height}' role='img'>"
    return "\n".join([head, f"<title>{html.escape(title)}</title>", *drawn, "</svg>"]) + "\n"
