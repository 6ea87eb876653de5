#!/usr/bin/env python3
"""growth.py SVGFILE: reads the lines of `bench growth` on standard input, prints the table of docs/PERFORMANCE.md, a row a family, and draws every size.

A unit is a state or a plan word: what the analysis has to write. The slope is that of the straight line nearest to a family's points from 500 units on, in a
drawing with both scales logarithmic: 1 where the time grows as the units do, 2 where it grows as their square. It needs Python's standard library only.
"""
import math
import sys
from collections import namedtuple

Point = namedtuple("Point", "size states words proved yardstick")

COLOURS = {
    "apart": "#000000",
    "one_device": "#0072B2",
    "crossings": "#D55E00",
    "great_box": "#009E73",
    "fine_tiles": "#CC79A7",
    "philosophers": "#8A6D00",
}

FROM = 500  # units: below, what every call costs whatever the set hides the growth


def units(point):
    return point.states + point.words


def slope(points, time):
    """Least squares on the logarithms."""
    pairs = [(math.log(units(p)), math.log(time(p))) for p in points if units(p) >= FROM]
    mean_x = sum(x for x, _ in pairs) / len(pairs)
    mean_y = sum(y for _, y in pairs) / len(pairs)
    return sum((x - mean_x) * (y - mean_y) for x, y in pairs) / sum((x - mean_x) ** 2 for x, _ in pairs)


def proved(point):
    return point.proved


def yardstick(point):
    return point.yardstick


def span(points, form, value):
    """From the smallest size to the largest."""
    return "%s to %s" % (form.format(value(points[0])), form.format(value(points[-1])))


def print_table(families):
    print("\n## Growth\n")
    print("| family | sizes | states | ns a unit, smallest to largest, proved | yardstick | slope, proved | yardstick |")
    print("|---|---|---|---|---|---|---|")
    for family, points in families.items():
        sizes, states = span(points, "{}", lambda p: p.size), span(points, "{:,}", lambda p: p.states)
        rates = [span(points, "{:.1f}", lambda p, time=time: time(p) / units(p)) for time in (proved, yardstick)]
        print("| %s | %s | %s | %s | %s | %.2f | %.2f |" % (family, sizes, states, *rates, slope(points, proved), slope(points, yardstick)))


class Panel:
    """A square with logarithmic scales: what lies between `low` and `high` on each axis."""

    def __init__(self, out, left, top, side, x_range, y_range):
        self.out, self.left, self.top, self.side = out, left, top, side
        self.x_range, self.y_range = x_range, y_range

    def x(self, value):
        low, high = self.x_range
        return self.left + self.side * math.log(value / low) / math.log(high / low)

    def y(self, value):
        low, high = self.y_range
        return self.top + self.side - self.side * math.log(value / low) / math.log(high / low)

    def line(self, points, colour, width, dashes=""):
        path = " ".join("%.1f,%.1f" % (self.x(x), self.y(y)) for x, y in points)
        self.out.append('<polyline points="%s" fill="none" stroke="%s" stroke-width="%s" stroke-dasharray="%s"/>' % (path, colour, width, dashes))

    def text(self, x, y, words, anchor="middle", colour="#333", turn=0):
        turned = ' transform="rotate(%d %.1f %.1f)"' % (turn, x, y) if turn else ""
        self.out.append('<text x="%.1f" y="%.1f" text-anchor="%s" fill="%s"%s>%s</text>' % (x, y, anchor, colour, turned, words))

    def frame(self, title, x_title, y_title, x_ticks, y_ticks):
        for value, label in x_ticks:
            self.line([(value, self.y_range[0]), (value, self.y_range[1])], "#ddd", 1)
            self.text(self.x(value), self.top + self.side + 18, label)
        for value, label in y_ticks:
            self.line([(self.x_range[0], value), (self.x_range[1], value)], "#ddd", 1)
            self.text(self.left - 8, self.y(value) + 4, label, "end")
        self.out.append('<rect x="%d" y="%d" width="%d" height="%d" fill="none" stroke="#333"/>' % (self.left, self.top, self.side, self.side))
        self.text(self.left + self.side / 2, self.top - 12, title)
        self.text(self.left + self.side / 2, self.top + self.side + 40, x_title)
        self.text(self.left - 52, self.top + self.side / 2, y_title, turn=-90)

    def series(self, points, colour, filled):
        self.line(points, colour, 1.8 if filled else 1.2, "" if filled else "5 3")
        for x, y in points:
            self.out.append(
                '<circle cx="%.1f" cy="%.1f" r="%s" fill="%s" stroke="%s"/>' % (self.x(x), self.y(y), 3.2 if filled else 2.6, colour if filled else "white", colour)
            )


def draw(families, file):
    side, top = 440, 50
    out = [
        '<svg xmlns="http://www.w3.org/2000/svg" viewBox="0 0 1220 560" font-family="sans-serif" font-size="13">',
        '<rect width="1220" height="560" fill="white"/>',
    ]
    x_range = (20, 200_000)
    x_ticks = [(100, "100"), (1_000, "1,000"), (10_000, "10,000"), (100_000, "100,000")]
    x_title = "states + plan words"
    times = Panel(out, 80, top, side, x_range, (0.3, 3_000))
    times.frame("Time of one analysis; dotted: so much for each unit", x_title, "µs", x_ticks, [(1, "1"), (10, "10"), (100, "100"), (1_000, "1,000")])
    # Where a time that grows as the units do would lie.
    for each in (1, 3, 10, 30):
        low, high = max(x_range[0], 300 / each), min(x_range[1], 2.2e6 / each)
        times.line([(low, low * each / 1e3), (high, high * each / 1e3)], "#bbb", 1, "1 3")
        # Named where no curve runs: the steep ones at their upper end, the others at their lower one.
        if each >= 10:
            times.text(times.x(high) - 8, times.y(high * each / 1e3) + 4, "%d ns" % each, "end", "#777")
        else:
            times.text(times.x(low) + 16, times.y(low * each / 1e3) - 6, "%d ns" % each, "start", "#777")
    rates = Panel(out, 620, top, side, x_range, (0.8, 60))
    rates.frame("The same for one unit, which is a state or a plan word", x_title, "ns", x_ticks, [(n, str(n)) for n in (1, 2, 5, 10, 20, 50)])
    for family, points in families.items():
        colour = COLOURS.get(family, "#666")
        for time, filled in ((yardstick, False), (proved, True)):
            times.series([(units(p), time(p) / 1e3) for p in points], colour, filled)
            rates.series([(units(p), time(p) / units(p)) for p in points], colour, filled)
    for row, (family, points) in enumerate(families.items()):
        y, colour = top + 20 + 44 * row, COLOURS.get(family, "#666")
        out.append('<rect x="1080" y="%d" width="14" height="14" fill="%s"/>' % (y - 11, colour))
        rates.text(1100, y, family, "start")
        rates.text(1100, y + 17, "slope %.2f (%.2f)" % (slope(points, proved), slope(points, yardstick)), "start", "#777")
    y = top + 20 + 44 * len(families) + 10
    for row, (words, colour, dashes) in enumerate([("proved", "#333", ""), ("yardstick", "#333", "5 3")]):
        at = y + 22 * row
        out.append('<line x1="1080" y1="%d" x2="1110" y2="%d" stroke="%s" stroke-width="1.6" stroke-dasharray="%s"/>' % (at - 4, at - 4, colour, dashes))
        out.append('<circle cx="1095" cy="%d" r="3" fill="%s" stroke="#333"/>' % (at - 4, "white" if dashes else "#333"))
        rates.text(1118, at, words, "start")
    rates.text(1080, y + 50, "slope: proved", "start", "#777")
    rates.text(1080, y + 66, "(yardstick), from", "start", "#777")
    rates.text(1080, y + 82, "%d units on" % FROM, "start", "#777")
    out.append("</svg>")
    with open(file, "w", encoding="utf-8") as svg:
        svg.write("\n".join(out) + "\n")


families = {}
for line in sys.stdin:
    family, *numbers = line.rstrip("\n").split("\t")
    size, states, words = (int(n) for n in numbers[:3])
    families.setdefault(family, []).append(Point(size, states, words, float(numbers[3]), float(numbers[4])))
print_table(families)
draw(families, sys.argv[1])
