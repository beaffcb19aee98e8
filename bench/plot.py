#!/usr/bin/env python3
"""Draws a CSV of growth as an SVG, both axes by powers: of runs, or of ranges one by one.

usage: plot.py runs|ranges GROWTH.csv OUT.svg
"""

import csv
import math
import sys
from dataclasses import dataclass
from html import escape

WIDTH, HEIGHT = 760, 440
LEFT, RIGHT, TOP, BOTTOM = 70, 130, 40, 60


@dataclass
class Plot:
    """What is drawn: the columns, how many nanoseconds the unit has, the words, and a colour for each contender."""

    number: str
    time: str
    unit: str
    unit_ns: float
    title: str
    below: str
    shown: dict


PLOTS = {
    "runs": Plot(
        "run", "least_ns", "ms", 1e6, "Union of two sets of 131,072 boundaries each", "boundaries in a run",
        {"library": "#c1272d", "vector": "#1f5fa8", "linear C": "#3a7d34", "ICU": "#8a5a00"},
    ),
    "ranges": Plot(
        "ranges", "insert_ns", "ns", 1, "A range put in, in random order", "ranges in the end",
        {"RangeSet": "#8a5a00", "ChunkedRangeSet": "#c1272d", "BTreeMap": "#1f5fa8", "Boost.ICL": "#3a7d34",
         "CRoaring": "#666"},
    ),
}


def read(plot, path):
    """The points of each contender that is shown: number and time."""
    lines = {}
    with open(path, newline="", encoding="utf-8") as file:
        for row in csv.DictReader(file):
            if row["contender"] in plot.shown:
                point = int(row[plot.number]), float(row[plot.time]) / plot.unit_ns
                lines.setdefault(row["contender"], []).append(point)
    return lines


class Axes:
    """Places of numbers and times on the page."""

    def __init__(self, lines):
        runs = [run for points in lines.values() for run, _ in points]
        times = [time for points in lines.values() for _, time in points]
        self.runs = sorted(set(runs))
        self.least = 10 ** math.floor(math.log10(min(times)))
        self.most = 10 ** math.ceil(math.log10(max(times)))

    def x(self, run):
        share = math.log(run / self.runs[0]) / math.log(self.runs[-1] / self.runs[0])
        return LEFT + share * (WIDTH - LEFT - RIGHT)

    def y(self, time):
        share = math.log(time / self.least) / math.log(self.most / self.least)
        return HEIGHT - BOTTOM - share * (HEIGHT - TOP - BOTTOM)

    def times(self):
        time = self.least
        while time <= self.most * 1.001:
            yield time
            time *= 10


def text(x, y, words, anchor="middle", colour="#333"):
    return f'<text x="{x:.1f}" y="{y:.1f}" text-anchor="{anchor}" fill="{colour}">{escape(words)}</text>'


def line(x, y, to_x, to_y):
    return f'<path d="M{x:.1f} {y:.1f}L{to_x:.1f} {to_y:.1f}" stroke="#ddd" fill="none"/>'


def grid(plot, axes):
    for run in axes.runs:
        yield line(axes.x(run), TOP, axes.x(run), HEIGHT - BOTTOM)
        yield text(axes.x(run), HEIGHT - BOTTOM + 18, f"{run:,}")
    for time in axes.times():
        yield line(LEFT, axes.y(time), WIDTH - RIGHT, axes.y(time))
        yield text(LEFT - 8, axes.y(time) + 4, f"{time:,g} {plot.unit}", "end")


def labels(axes, lines):
    """Where each name stands: beside its last point, and below the one above it."""
    places, lowest = {}, {}
    for name, points in sorted(lines.items(), key=lambda line: axes.y(line[1][-1][1])):
        x, y = axes.x(points[-1][0]), axes.y(points[-1][1])
        lowest[x] = max(y, lowest.get(x, TOP) + 14)
        places[name] = x + 8, lowest[x] + 4
    return places


def curve(plot, axes, name, points):
    colour = plot.shown[name]
    path = "L".join(f"{axes.x(run):.1f} {axes.y(time):.1f}" for run, time in points)
    yield f'<path d="M{path}" stroke="{colour}" stroke-width="2" fill="none"/>'


def picture(plot, lines):
    axes = Axes(lines)
    yield (f'<svg xmlns="http://www.w3.org/2000/svg" viewBox="0 0 {WIDTH} {HEIGHT}" '
           'font-family="sans-serif" font-size="12">')
    yield f'<rect width="{WIDTH}" height="{HEIGHT}" fill="white"/>'
    yield text(WIDTH / 2, 22, plot.title)
    yield from grid(plot, axes)
    for name, points in lines.items():
        yield from curve(plot, axes, name, points)
    for name, (x, y) in labels(axes, lines).items():
        yield text(x, y, name, "start", plot.shown[name])
    yield text((LEFT + WIDTH - RIGHT) / 2, HEIGHT - 18, plot.below)
    yield "</svg>"


def main(words):
    if len(words) != 3 or words[0] not in PLOTS:
        sys.exit(__doc__.strip().splitlines()[-1])
    plot = PLOTS[words[0]]
    lines = read(plot, words[1])
    with open(words[2], "w", encoding="utf-8") as file:
        file.write("\n".join(picture(plot, lines)) + "\n")


if __name__ == "__main__":
    main(sys.argv[1:])
