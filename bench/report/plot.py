"""Draws time against n for each task, city block in the plane, uniform: small multiples, both axes logarithmic. Prints the SVG."""
import math
import sys

import results as r

# Colours that stay apart for most eyes; dashes and marks tell the lines apart without them.
LINES = {
    "ours": ("#d62728", "", "ours, as called (512 questions)"),
    "ours alone": ("#d62728", "5 3", "ours, questions alone"),
    "plain scan": ("#333333", "", "plain scan"),
    "vector scan": ("#8c8c8c", "", "vector scan"),
    "NearTree": ("#1f77b4", "", "NearTree"),
    "nanoflann": ("#2ca02c", "", "nanoflann"),
}
TITLES = {"entering": "entering n claims", "single nearest": "nearest, single call"}
WIDTH, HEIGHT, LEFT, TOP, GAP_X, GAP_Y, COLUMNS = 215, 180, 62, 84, 62, 66, 4


def text(x, y, words, size=11, anchor="middle", extra=""):
    return f'<text x="{x:.1f}" y="{y:.1f}" font-size="{size}" text-anchor="{anchor}"{extra}>{words}</text>'


def line(x1, y1, x2, y2, colour="#dddddd", extra=""):
    return f'<line x1="{x1:.1f}" y1="{y1:.1f}" x2="{x2:.1f}" y2="{y2:.1f}" stroke="{colour}"{extra}/>'


def tick_name(decade):
    return f"{10 ** (decade - 3):g} ms" if decade >= 3 else f"{10 ** (decade + 3):g} ns" if decade < 0 else f"{10 ** decade:g} µs"


class Panel:
    """One task: its frame and its lines. Times are microseconds."""

    def __init__(self, index, task, lines):
        self.x0 = LEFT + index % COLUMNS * (WIDTH + GAP_X)
        self.y0 = TOP + index // COLUMNS * (HEIGHT + GAP_Y)
        self.task, self.lines = task, lines
        times = [us for points in lines.values() for _, us in points]
        self.low = math.floor(math.log10(min(times)))
        self.high = max(math.ceil(math.log10(max(times))), self.low + 1)

    def x(self, n):
        return self.x0 + WIDTH * (0.05 + 0.9 * math.log(n / r.SIZES[0]) / math.log(r.SIZES[-1] / r.SIZES[0]))

    def y(self, us):
        return self.y0 + HEIGHT * (self.high - math.log10(us)) / (self.high - self.low)

    def axes(self):
        bottom, right = self.y0 + HEIGHT, self.x0 + WIDTH
        parts = [text(self.x0 + WIDTH / 2, self.y0 - 8, TITLES.get(self.task, self.task), 13, extra=' font-weight="bold"')]
        for decade in range(self.low, self.high + 1):
            y = self.y(10**decade)
            parts += [line(self.x0, y, right, y), text(self.x0 - 5, y + 4, tick_name(decade), 10, "end")]
        for n in r.SIZES:
            parts += [line(self.x(n), self.y0, self.x(n), bottom), text(self.x(n), bottom + 14, f"{n:,}", 10)]
        parts.append(f'<rect x="{self.x0}" y="{self.y0}" width="{WIDTH}" height="{HEIGHT}" fill="none" stroke="#888888"/>')
        parts.append(text(self.x0 + WIDTH / 2, bottom + 29, "claims, n", 10))
        x, y = self.x0 - 46, self.y0 + HEIGHT / 2
        parts.append(text(x, y, "time", 10, extra=f' transform="rotate(-90 {x:.1f} {y:.1f})"'))
        return parts

    def draw(self):
        parts = self.axes()
        for who, points in self.lines.items():
            colour, dashes, _ = LINES[who]
            path = " ".join(f"{self.x(n):.1f},{self.y(us):.1f}" for n, us in points)
            parts.append(f'<polyline points="{path}" fill="none" stroke="{colour}" stroke-width="2" stroke-dasharray="{dashes}"/>')
            parts += [f'<circle cx="{self.x(n):.1f}" cy="{self.y(us):.1f}" r="2.6" fill="{colour}"/>' for n, us in points]
        return parts


def legend(width):
    parts = [text(width / 2, 22, "Time for each question against the number of claims: city block in the plane, uniform claims", 15)]
    x = 40
    for colour, dashes, name in LINES.values():
        parts.append(line(x, 44, x + 26, 44, colour, f' stroke-width="2" stroke-dasharray="{dashes}"'))
        parts.append(f'<circle cx="{x + 13}" cy="44" r="2.6" fill="{colour}"/>')
        parts.append(text(x + 31, 48, name, 11, "start"))
        x += 90 + 6.2 * len(name)
    return parts


def main():
    plane = r.plane(r.read(sys.argv[1]))
    panels = []
    for index, task in enumerate(r.TASKS):
        lines = {}
        for who in LINES:
            points = [(n, plane[task, n, who].ns / 1000) for n in r.SIZES if (task, n, who) in plane]
            points = [(n, us) for n, us in points if us > 0]
            if points:
                lines[who] = points
        panels.append(Panel(index, task, lines))
    width = LEFT + COLUMNS * (WIDTH + GAP_X) - GAP_X + 24
    height = TOP + math.ceil(len(panels) / COLUMNS) * (HEIGHT + GAP_Y) - 20
    print(f'<svg xmlns="http://www.w3.org/2000/svg" viewBox="0 0 {width} {height}" width="{width}" height="{height}" '
          'font-family="Helvetica, Arial, sans-serif" fill="#222222">')
    print(f'<rect width="{width}" height="{height}" fill="#ffffff"/>')
    print("\n".join(legend(width) + [part for panel in panels for part in panel.draw()]))
    print("</svg>")


main()
