"""Draws panels of points on two logarithmic axes, each beside a dashed line that grows by a power, as one SVG that needs nothing else. For bench/run --plot.

A panel is a dictionary: title, x and y (what the axes count), ticks (those of x), series, power and dashed. A series is a name, a shape and points; the dashed
line grows by that power of x, goes through the last point of each series and has the name `dashed`. Shapes and dashes tell the lines apart, not colours."""
import math
from xml.sax.saxutils import escape

WIDE, HIGH, LEFT, TOP, BELOW, RIGHT = 280, 290, 58, 44, 52, 18
STYLE = """text { font: 12px sans-serif; fill: #111 } .title { font-weight: bold; font-size: 13px } .note { font-size: 11px; fill: #333 }
.axis { stroke: #111 } .grid { stroke: #ddd } .line { stroke: #111; fill: none; stroke-width: 1.5 } .power { stroke: #555; stroke-dasharray: 5 4 }
.full { fill: #111 } .open { fill: #fff; stroke: #111; stroke-width: 1.5 }"""
UNITS = [(1e9, "s"), (1e6, "ms"), (1e3, "µs"), (1, "ns")]


def time_text(nanoseconds):
    for size, unit in UNITS:
        if nanoseconds >= size:
            return "%.4g %s" % (nanoseconds / size, unit)
    return "%.3g ns" % nanoseconds


class Axes:
    """Where a pair of numbers lies in a panel that begins at `start`."""

    def __init__(self, panel, start):
        points = [point for _, _, series in panel["series"] for point in series]
        xs, ys = [x for x, _ in points] + panel["ticks"], [y for _, y in points]
        self.x0, self.x1 = min(xs), max(xs)
        self.y0, self.y1 = 10 ** math.floor(math.log10(min(ys))), 10 ** math.ceil(math.log10(max(ys)))
        self.left, self.right, self.top, self.bottom = start + LEFT, start + WIDE - RIGHT, TOP, HIGH - BELOW

    def x(self, value):
        return self.left + (self.right - self.left) * math.log(value / self.x0) / math.log(self.x1 / self.x0)

    def y(self, value):
        return self.bottom - (self.bottom - self.top) * math.log(value / self.y0) / math.log(self.y1 / self.y0)


def line(kind, x0, y0, x1, y1):
    return '<line class="%s" x1="%.1f" y1="%.1f" x2="%.1f" y2="%.1f"/>' % (kind, x0, y0, x1, y1)


def text(x, y, words, anchor="middle", kind=""):
    return '<text x="%.1f" y="%.1f" text-anchor="%s" class="%s">%s</text>' % (x, y, anchor, kind, escape(words))


def frame(panel, at):
    """The axes with their ticks and names."""
    parts = [text((at.left + at.right) / 2, 20, panel["title"], kind="title")]
    value = at.y0
    while value <= at.y1 * 1.01:
        parts += [line("grid", at.left, at.y(value), at.right, at.y(value)), text(at.left - 6, at.y(value) + 4, time_text(value), "end")]
        value *= 10
    for value in panel["ticks"]:
        parts += [line("axis", at.x(value), at.bottom, at.x(value), at.bottom + 4), text(at.x(value), at.bottom + 18, "{:,}".format(value))]
    parts += [line("axis", at.left, at.top, at.left, at.bottom), line("axis", at.left, at.bottom, at.right, at.bottom)]
    return parts + [text((at.left + at.right) / 2, at.bottom + 36, panel["x"]), text(at.left, at.top - 8, panel["y"], "middle", "note")]


def mark(shape, x, y):
    if shape == "circle":
        return '<circle class="full" cx="%.1f" cy="%.1f" r="3.5"/>' % (x, y)
    return '<rect class="open" x="%.1f" y="%.1f" width="7" height="7"/>' % (x - 3.5, y - 3.5)


def along(panel, points, at):
    """The dashed line through the last point, as far as the panel goes, and its name right of its lower end."""
    x1, y1 = points[-1]
    x0 = max(at.x0, x1 * (at.y0 / y1) ** (1 / panel["power"]))
    y0 = y1 * (x0 / x1) ** panel["power"]
    return [line("power", at.x(x0), at.y(y0), at.x(x1), at.y(y1)), text(at.x(x0) + 26, at.y(y0) - 10, panel["dashed"], "start", "note")]


def drawn(panel, start):
    at = Axes(panel, start)
    parts = frame(panel, at)
    for name, shape, points in panel["series"]:
        parts += along(panel, points, at)
        places = [(at.x(x), at.y(y)) for x, y in points]
        parts.append('<polyline class="line" points="%s"/>' % " ".join("%.1f,%.1f" % place for place in places))
        parts += [mark(shape, *place) for place in places]
        middle = places[len(places) // 2]
        parts.append(text(middle[0] - 8, middle[1] - 9, name, "end"))
    return parts


def svg(panels, told, note):
    """The whole picture; `told` is what it says, for who cannot see it, `note` the line below it."""
    wide, high = WIDE * len(panels), HIGH + 26
    parts = ['<svg xmlns="http://www.w3.org/2000/svg" viewBox="0 0 %d %d" width="%d" height="%d" role="img">' % (wide, high, wide, high),
             "<title>%s</title>" % escape(told), "<style>%s</style>" % STYLE, '<rect width="%d" height="%d" fill="#fff"/>' % (wide, high)]
    for number, panel in enumerate(panels):
        parts += drawn(panel, WIDE * number)
    return "\n".join([*parts, text(12, high - 12, note, "start", "note"), "</svg>", ""])
