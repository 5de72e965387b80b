#!/usr/bin/env python3
"""Draws what bench/growth.sh has measured, with the standard library alone: the time of a record
and the memory of a run over the number of users, with a panel for each number of workers, a line
for each number of records, and the sequential pass of as many records dashed.

Usage: bench/growth.py FILE TIME.svg MEMORY.svg
"""

import sys
from collections import defaultdict
from math import ceil, floor, log10

COLOURS = ["#1b6ca8", "#d1495b", "#3a7d44", "#8e5aa6", "#b8860b", "#444444"]
INK, GRID = "#222222", "#e4e4e4"
WIDTH, HEIGHT = 250, 220  # of a panel
LEFT, TOP, GAP, BOTTOM = 62, 44, 30, 74  # around and between panels
LEAST = {"time": 0.001, "memory": 1}  # what is drawn in place of 0
POWERS = str.maketrans("0123456789", "⁰¹²³⁴⁵⁶⁷⁸⁹")


def read(path):
    """The points (users, value) of each measure, way and number of records: the time is that of a
    record in microseconds."""
    lines = defaultdict(list)
    with open(path, encoding="utf-8") as file:
        for line in file:
            if line.strip() and not line.startswith("#"):
                records, users, way, seconds, _, memory = line.split()
                time = float(seconds) * 1e6 / int(records)
                for measure, value in ("time", time), ("memory", float(memory)):
                    point = int(users), max(value, LEAST[measure])
                    lines[measure, way, int(records)].append(point)
    return {key: sorted(points) for key, points in lines.items()}


class Scale:
    """A logarithmic scale, from one of the numbers 1, 2, 5, 10, 20 and so on to another one."""

    def __init__(self, values, start, end):
        least, greatest = min(values), max(values)
        decades = range(floor(log10(least)), ceil(log10(greatest)) + 2)
        ticks = [step * 10.0**decade for decade in decades for step in (1, 2, 5)]
        first = max(index for index, tick in enumerate(ticks) if tick <= least * 1.001)
        last = min(index for index, tick in enumerate(ticks) if tick >= greatest * 0.999)
        self.ticks = ticks[first : max(last, first + 1) + 1]
        self.start, self.end = start, end

    def at(self, value):
        low, high = log10(self.ticks[0]), log10(self.ticks[-1])
        return self.start + (log10(value) - low) / (high - low) * (self.end - self.start)

    def labels(self):
        """The powers of ten, and all where these are few."""
        powers = [tick for tick in self.ticks if abs(log10(tick) - round(log10(tick))) < 1e-6]
        return powers if len(powers) > 2 else self.ticks


def spelled(number):
    if number < 10_000:
        return f"{number:g}"
    power = "10" + str(round(log10(number))).translate(POWERS)
    return power if abs(10 ** round(log10(number)) - number) < 1 else f"{number:,.0f}"


def text(x, y, words, anchor="middle", more=""):
    return f'<text x="{x:.1f}" y="{y:.1f}" text-anchor="{anchor}" fill="{INK}"{more}>{words}</text>'


def rule(x1, y1, x2, y2):
    return f'<path d="M{x1:.1f} {y1:.1f}L{x2:.1f} {y2:.1f}" stroke="{GRID}"/>'


def curve(points, across, up, colour, dashed):
    places = [(across.at(users), up.at(value)) for users, value in points]
    path = "L".join(f"{x:.1f} {y:.1f}" for x, y in places)
    if dashed:
        return f'<path d="M{path}" stroke="{colour}" stroke-width="1.4" stroke-dasharray="4 3"/>'
    dots = (f'<circle cx="{x:.1f}" cy="{y:.1f}" r="2.4" fill="{colour}"/>' for x, y in places)
    return f'<path d="M{path}" stroke="{colour}" stroke-width="1.6"/>' + "".join(dots)


def grid(left, across, up, title, is_first):
    """A panel without its lines."""
    bottom, middle = TOP + HEIGHT, left + WIDTH / 2
    yield text(middle, TOP - 8, title)
    yield text(middle, bottom + 31, "users")
    for tick in across.labels():
        yield rule(across.at(tick), TOP, across.at(tick), bottom)
        yield text(across.at(tick), bottom + 15, spelled(tick))
    for tick in up.labels():
        yield rule(left, up.at(tick), left + WIDTH, up.at(tick))
        if is_first:
            yield text(left - 6, up.at(tick) + 4, spelled(tick), "end")


def legend(sizes, width, has_pass):
    y = TOP + HEIGHT + 56
    step = (width - LEFT) / (len(sizes) + has_pass)
    for number, (colour, size) in enumerate(zip(COLOURS, sizes)):
        x = LEFT + number * step
        words = f"{size / 1_000_000:g} million records"
        yield f'<path d="M{x:.1f} {y - 4}h16" stroke="{colour}" stroke-width="3"/>'
        yield text(x + 21, y, words, "start")
    if has_pass:
        yield text(LEFT + len(sizes) * step, y, "dashed: the sequential pass", "start")


def drawing(title, unit, lines):
    """The drawing of the points of each way and number of records."""
    ways = sorted({way for way, _ in lines if way != "pass"}, key=int)
    sizes = sorted({size for _, size in lines})
    points = [point for line in lines.values() for point in line]
    width, height = LEFT + len(ways) * (WIDTH + GAP), TOP + HEIGHT + BOTTOM
    up = Scale([value for _, value in points], TOP + HEIGHT, TOP)
    yield (
        f'<svg xmlns="http://www.w3.org/2000/svg" width="{width}" height="{height}" '
        f'viewBox="0 0 {width} {height}" fill="none" font-family="sans-serif" font-size="11">'
    )
    yield f'<rect width="{width}" height="{height}" fill="#ffffff"/>'
    yield text(LEFT, 18, title, "start", ' font-size="14"')
    yield text(0, 0, unit, more=f' transform="translate(14 {TOP + HEIGHT / 2}) rotate(-90)"')
    for number, way in enumerate(ways):
        left = LEFT + number * (WIDTH + GAP)
        across = Scale([users for users, _ in points], left, left + WIDTH)
        name = "1 worker" if way == "1" else f"{way} workers"
        yield from grid(left, across, up, name, number == 0)
        for colour, size in zip(COLOURS, sizes):
            for line in ("pass", way):
                if (line, size) in lines:
                    yield curve(lines[line, size], across, up, colour, line == "pass")
    yield from legend(sizes, width, any(way == "pass" for way, _ in lines))
    yield "</svg>"


def write(path, lines):
    with open(path, "w", encoding="utf-8") as file:
        file.writelines(line + "\n" for line in lines)


def main():
    if len(sys.argv) != 4:
        sys.exit(__doc__)
    measured = read(sys.argv[1])
    # The memory of the pass has the log in it, so it isn't drawn.
    times = {key[1:]: line for key, line in measured.items() if key[0] == "time"}
    memory = {
        key[1:]: line for key, line in measured.items() if key[0] == "memory" and key[1] != "pass"
    }
    title = "Sessions of each user: the "
    write(sys.argv[2], drawing(title + "time of a record", "microseconds", times))
    write(sys.argv[3], drawing(title + "memory of a run", "MiB", memory))


main()
