#!/usr/bin/env python3
"""Draws docs/growth.svg from the table in the section "As the data grow" of docs/SPEED.md: a plot for each row, with two lines.

    growth_picture.py           writes the picture
    growth_picture.py --check   writes nothing, and fails if docs/growth.svg is another picture

The table's first columns are Work and Allocator and index, the others are sizes. A cell has our instructions and Boost's, or nothing.
Both axes of a plot are logarithmic, and the plots have the same sizes from left to right. From bottom to top each has its own decades."""
import math
import re
import sys
from dataclasses import dataclass

from picture import BOLD, DARK, DOCS, END, LIGHT, MIDDLE, PAGE, box, cells, write

PICTURE = DOCS / "growth.svg"
HEADING = "As the data grow"

# In pixels: the width of the picture, of a plot with its numbers, and of its lines; the same of heights; and the edges.
WIDTH, COLUMNS, STEP, ACROSS = 880, 4, 216, 158
ROW, DOWN, TOP, LEFT, HEAD = 168, 92, 74, 46, 40

LIBRARIES = ("Lezgauri", "Boost.Interprocess")


@dataclass
class Plot:
    work: str
    kind: str  # the allocator and the index
    points: list[tuple[float, tuple[float, float]]]  # the size, our instructions and Boost's

    def decades(self):
        """The least and the greatest power of ten on the axis of instructions."""
        numbers = [number for _, pair in self.points for number in pair]
        least, most = math.floor(math.log10(min(numbers))), math.ceil(math.log10(max(numbers)))
        return least, max(most, least + 2)


def number(text):
    """A number of the table: M is a million."""
    digits, _, million = text.replace(",", "").partition(" ")
    return float(digits) * (1e6 if million else 1)


def read_plots(page):
    """The sizes of the table's columns, and a plot for each row."""
    section = page.partition(f"\n## {HEADING}\n")[2].partition("\n## ")[0]
    table = re.search(r"(?m)^\| Work \|.*\n\|[-|]+\n(?:\|.*\n)+", section)
    if not table:
        raise SystemExit(f"{PAGE.name}: no table in the section {HEADING}")
    header, _, *rows = map(cells, table[0].splitlines())
    sizes, plots = [number(column) for column in header[2:]], []
    for work, kind, *pairs in rows:
        points = [(size, tuple(map(number, pair.split(" / ")))) for size, pair in zip(sizes, pairs) if pair]
        plots.append(Plot(work, kind, points))
    return sizes, plots


def power(exponent):
    """A power of ten as text."""
    return "10" + "".join("\u2070\u00b9\u00b2\u00b3\u2074\u2075\u2076\u2077\u2078\u2079"[int(digit)] for digit in str(exponent))


def line(kind, points):
    path = " ".join(f"{x:.1f},{y:.1f}" for x, y in points)
    return f'<polyline class="{kind}" points="{path}"/>'


def dot(kind, x, y, words):
    return f'<circle class="{kind}" cx="{x:.1f}" cy="{y:.1f}" r="2.6"><title>{words}</title></circle>'


def draw(plot, left, top, sizes):
    """A plot, with its lines from the left and the top of this place."""
    first, last = math.log10(sizes[0]), math.log10(sizes[-1])
    least, most = plot.decades()
    bottom = top + HEAD + DOWN

    def across(size):
        return left + LEFT + ACROSS * (math.log10(size) - first) / (last - first)

    def up(count):
        return bottom - DOWN * (math.log10(count) - least) / (most - least)

    parts = [write("ink", left + 8, top + 14, plot.work, 12, BOLD), write("quiet", left + 8, top + 29, plot.kind, 11)]
    parts.append(box("stripe", left + LEFT, top + HEAD, ACROSS, DOWN))
    every = 1 if most - least < 6 else 2
    for exponent in range(least, most + 1):
        parts.append(box("grid", left + LEFT, up(10.0**exponent) - 0.5, ACROSS, 1))
        if (exponent - least) % every == 0:
            parts.append(write("quiet", left + LEFT - 5, up(10.0**exponent) + 4, power(exponent), 10, END))
    for size in sizes:
        parts.append(box("grid", across(size) - 0.5, bottom, 1, 3))
        parts.append(write("quiet", across(size), bottom + 14, power(round(math.log10(size))), 10, MIDDLE))
    for library, name in reversed(list(enumerate(LIBRARIES))):
        points = [(across(size), up(pair[library])) for size, pair in plot.points]
        parts.append(line(f"line{library}", points))
        for (x, y), (size, pair) in zip(points, plot.points):
            parts.append(dot(f"bar{library}", x, y, f"{name}, {size:,.0f}: {pair[library]:,.0f}"))
    return parts


def sentence(plot):
    """The text of a plot."""
    counts = [f"{size:,.0f}: {ours:,.0f} to {theirs:,.0f}" for size, (ours, theirs) in plot.points]
    return f"{plot.work}, {plot.kind}. {'; '.join(counts)}."


def style():
    def rules(colours):
        fills = "".join(f".{kind}{{fill:{colour}}}" for kind, colour in colours.items())
        return fills + "".join(f".line{library}{{fill:none;stroke:{colours[f'bar{library}']};stroke-width:1.8}}" for library in (0, 1))

    return f"<style>{rules(LIGHT)}\n@media (prefers-color-scheme: dark){{{rules(DARK)}}}</style>"


def legend():
    parts, x = [], 16
    for library, name in enumerate(LIBRARIES):
        parts += [box(f"bar{library}", x, 51, 26, 3), f'<circle class="bar{library}" cx="{x + 13}" cy="52.5" r="3.5"/>']
        parts.append(write("ink", x + 34, 57, name, 13))
        x += 7 * len(name) + 60
    words = "Instructions of one operation by the number of keys, nodes or blocks; log scales"
    return [*parts, write("quiet", x, 57, words, 11)]


def picture(page):
    sizes, plots = read_plots(page)
    height = TOP + ROW * math.ceil(len(plots) / COLUMNS) + 8
    drawn = []
    for index, plot in enumerate(plots):
        drawn += draw(plot, 8 + STEP * (index % COLUMNS), TOP + ROW * (index // COLUMNS), sizes)
    title = "What an operation costs as the data grow: Lezgauri and Boost.Interprocess"
    font = "font-family=\"system-ui, -apple-system, 'Segoe UI', 'DejaVu Sans', Helvetica, Arial, sans-serif\""
    described = 'role="img" aria-labelledby="title" aria-describedby="desc"'
    words = " ".join(map(sentence, plots))
    return "\n".join([
        f'<svg xmlns="http://www.w3.org/2000/svg" viewBox="0 0 {WIDTH} {height}" {described} {font}>',
        f'<title id="title">{title}</title>',
        f'<desc id="desc">Instructions of Lezgauri to those of Boost.Interprocess, by size. {words}</desc>',
        style(),
        box("page", 0, 0, WIDTH, height, 8),
        write("ink", 16, 32, title, 19, BOLD),
        *legend(), *drawn,
        "</svg>\n",
    ])


def main():
    if sys.argv[1:] not in ([], ["--check"]):
        raise SystemExit(__doc__)
    drawn = picture(PAGE.read_text(encoding="utf-8"))
    if not sys.argv[1:]:
        PICTURE.write_text(drawn, encoding="utf-8")
    elif PICTURE.read_text(encoding="utf-8") != drawn:
        raise SystemExit(f"{PICTURE.name} isn't the picture of the table in {PAGE.name}; bench/growth_picture.py draws it")


if __name__ == "__main__":
    main()
