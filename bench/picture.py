#!/usr/bin/env python3
"""Draws docs/speed.svg from the tables of docs/SPEED.md: a bar for each ratio of instructions, and a tick for the ratio of times.

    picture.py           writes the picture
    picture.py --check   writes nothing, and fails if docs/speed.svg is another picture

It reads each table whose first column is Work. A column `ratio` belongs to the peer whose column is before it, and to the last
column before both whose header begins with Lezgauri. Both modes fail if a ratio isn't the quotient of the two numbers, as far as their
rounding shows."""
import math
import re
import sys
from dataclasses import dataclass
from pathlib import Path

DOCS = Path(__file__).resolve().parent.parent / "docs"
PAGE, PICTURE = DOCS / "SPEED.md", DOCS / "speed.svg"

# A class has one colour for shapes and letters. Colour-blind readers can tell the bars apart too.
LIGHT = {"page": "#ffffff", "stripe": "#f4f6f8", "grid": "#d3d9df", "ink": "#1f2328", "quiet": "#59636e"}
LIGHT |= {"bar0": "#0072b2", "bar1": "#e69f00", "alone": "#009e73"}
DARK = {"page": "#0d1117", "stripe": "#161b22", "grid": "#3d444d", "ink": "#f0f6fc", "quiet": "#9198a1"}
DARK |= {"bar0": "#56b4e9", "bar1": "#e69f00", "alone": "#2fb98c"}

# In pixels: the width of the picture, the edges of the part with the bars, and the distance between bars.
WIDTH, LEFT, RIGHT, TOP, LANE = 880, 280, 730, 112, 12

# The right edges of the columns of numbers.
INSTRUCTIONS, TIMES = 818, 864

# The ends of the scale, as powers of two.
LEAST, MOST = -5, 3

END, MIDDLE, BOLD = ' text-anchor="end"', ' text-anchor="middle"', ' font-weight="600"'


@dataclass
class Ratio:
    ours: str
    theirs: str
    shown: str

    @property
    def value(self):
        return float(self.shown)

    def is_quotient(self):
        """Whether two rounded numbers can have this rounded quotient."""
        (least, most), (their_least, their_most) = bounds(self.ours), bounds(self.theirs)
        least_ratio, most_ratio = bounds(self.shown)
        return least / their_most <= most_ratio and least_ratio <= most / their_least


def bounds(number):
    """The bounds of the numbers that are rounded to this number."""
    digits = number.replace(",", "")
    half = 0.5 * 10.0 ** -len(digits.partition(".")[2])
    return float(digits) - half, float(digits) + half


def cells(line):
    return [cell.strip() for cell in line.strip().strip("|").split("|")]


def read_section(page, heading):
    """The ratios of a section: by the peer, then by the work, then by our build, whose name is empty if it is the only one."""
    section = page.partition(f"\n## {heading}\n")[2].partition("\n## ")[0]
    peers = {}
    for table in re.findall(r"(?m)^\| Work \|.*\n\|[-|]+\n(?:\|.*\n)+", section):
        header, _, *rows = map(cells, table.splitlines())
        for row in rows:
            read_row(peers, header, row)
    return peers


def read_row(peers, header, row):
    build, ours = "", ""
    for index, column in enumerate(header):
        if column.startswith("Lezgauri"):
            build, ours = column.partition(", ")[2], row[index]
        elif column == "ratio" and row[index]:
            found = Ratio(ours, row[index - 1], row[index])
            if not found.is_quotient():
                raise SystemExit(f"{PAGE.name}: {row[0]}: {found.shown} isn't {found.ours} / {found.theirs}")
            peers.setdefault(header[index - 1], {}).setdefault(row[0], {})[build] = found


def place(ratio):
    """Where a ratio is on the scale."""
    if not 2.0**LEAST <= ratio <= 2.0**MOST:
        raise SystemExit(f"{ratio} isn't on the scale of the picture")
    return LEFT + (RIGHT - LEFT) * (math.log2(ratio) - LEAST) / (MOST - LEAST)


def box(kind, x, y, width, height, corner=0.0):
    rounded = f' rx="{corner:g}"' if corner else ""
    return f'<rect class="{kind}" x="{x:.1f}" y="{y:.1f}" width="{width:.1f}" height="{height:.1f}"{rounded}/>'


def write(kind, x, y, words, size, more=""):
    escaped = words.replace("&", "&amp;").replace("<", "&lt;")
    return f'<text class="{kind}" x="{x:.1f}" y="{y:.1f}" font-size="{size}"{more}>{escaped}</text>'


def tick(x, y, height):
    """A tick with a rim, which makes it visible on a bar."""
    return box("page", x - 2.5, y, 5, height) + box("ink", x - 1, y, 2, height)


def bar(kind, y, ratio, time):
    """A bar from 1 to a ratio, with the tick of its time if there is one, and both ratios as numbers."""
    one, end = place(1), place(ratio.value)
    parts = [box(kind, min(one, end), y - 4, abs(end - one), 8, 1.5), write("ink", INSTRUCTIONS, y + 4, ratio.shown, 11, END)]
    if time:
        parts.append(tick(place(time.value), y - 6, 12))
    parts.append(write("ink" if time else "quiet", TIMES, y + 4, time.shown if time else "\u2013", 11, END))
    return "".join(parts)


def sentence(work, row, times):
    """The text of a row of the picture."""
    ratios = []
    for build, ratio in row.items():
        name = f" with {build}" if build else ""
        time = f", time {times[build].shown}" if build in times else ""
        ratios.append(f"{ratio.shown}{name} ({ratio.ours} to {ratio.theirs} instructions{time})")
    return f"{work}: {', '.join(ratios)}."


def legend(kinds, y):
    """The builds' names behind their colours."""
    parts, x = [], LEFT + 10
    for build, kind in kinds.items():
        parts += [box(kind, x, y - 8, 26, 8, 1.5), write("quiet", x + 32, y, build, 12)]
        x += 7 * len(build) + 60
    return parts if len(kinds) > 1 else []


def block(top, peer, works, times):
    """The rows of a peer, beginning at a height. Returns them, the height after them, and their words."""
    builds = list(dict.fromkeys(build for row in works.values() for build in row))
    kinds = {build: f"bar{index}" if build else "alone" for index, build in enumerate(builds)}
    heading = [write("ink", 16, top + 19, peer, 14, BOLD), *legend(kinds, top + 19)]
    stripes, rows, words = [], [], [f"Compared to {peer}."]
    y, height = top + 28, LANE * len(builds) + 6
    for index, work in enumerate(sorted(works, key=lambda it: max(ratio.value for ratio in works[it].values()))):
        row, beside = works[work], times.get(work, {})
        words.append(sentence(work, row, beside))
        if index % 2 == 0:
            stripes.append(box("stripe", 8, y, WIDTH - 16, height, 3))
        rows.append(write("ink", 16, y + height / 2 + 4.5, work, 13))
        first = y + (height - LANE * (len(row) - 1)) / 2
        rows += [bar(kinds[build], first + LANE * lane, ratio, beside.get(build)) for lane, (build, ratio) in enumerate(row.items())]
        y += height
    return [*heading, *stripes, *lines(top + 28, y), *rows], y + 6, words


def lines(top, bottom):
    """The lines of the scale."""
    return [box("grid" if power else "ink", place(2.0**power) - 0.5, top, 1, bottom - top) for power in range(LEAST, MOST + 1)]


def scale(y):
    """The numbers of the scale."""
    parts = []
    for power in range(LEAST, MOST + 1):
        kind, weight = ("quiet", "") if power else ("ink", BOLD)
        number = f"1/{2**-power}" if power < 0 else str(2**power)
        parts.append(write(kind, place(2.0**power), y, number, 12, MIDDLE + weight))
    return parts


def head(title):
    """The title, and what a bar, a tick, a side and a column mean."""
    y, one = 58, place(1)
    return [
        write("ink", 16, 32, title, 17, BOLD),
        box("quiet", 16, y - 8, 26, 8, 1.5),
        write("quiet", 50, y, "Instructions of one operation: Lezgauri's divided by those of the other library, on a log scale", 13),
        tick(29, y + 9, 12),
        write("quiet", 50, y + 20, "The same ratio of times, if it was measured", 13),
        write("quiet", one - 12, y + 24, "\u2190 Lezgauri needs less", 12, END),
        write("quiet", one + 12, y + 24, "Lezgauri needs more \u2192", 12),
        write("quiet", INSTRUCTIONS, TOP - 13, "instructions", 11, END),
        write("quiet", TIMES, TOP - 13, "time", 11, END),
    ]


def style():
    def rules(colours):
        return "".join(f".{kind}{{fill:{colour}}}" for kind, colour in colours.items())

    return f"<style>{rules(LIGHT)}\n@media (prefers-color-scheme: dark){{{rules(DARK)}}}</style>"


def picture(page):
    instructions, times = read_section(page, "Instructions"), read_section(page, "Times in nanoseconds")
    timed = {(peer, work) for peer, works in times.items() for work in works}
    if alone := timed - {(peer, work) for peer, works in instructions.items() for work in works}:
        raise SystemExit(f"{PAGE.name}: rows with times and no instructions: {sorted(alone)}")
    rows, words, y = [], [], TOP
    for peer, works in instructions.items():
        parts, y, sentences = block(y, peer, works, times.get(peer, {}))
        rows, words = rows + parts, words + sentences
    *most, last = instructions
    title = f"Lezgauri compared to {', '.join(most)} and {last}"
    font = "font-family=\"system-ui, -apple-system, 'Segoe UI', 'DejaVu Sans', Helvetica, Arial, sans-serif\""
    described = 'role="img" aria-labelledby="title" aria-describedby="desc"'
    return "\n".join([
        f'<svg xmlns="http://www.w3.org/2000/svg" viewBox="0 0 {WIDTH} {y + 24}" {described} {font}>',
        f'<title id="title">{title}</title>',
        f'<desc id="desc">Ratios below 1 mean that Lezgauri needs less. {" ".join(words)}</desc>',
        style(),
        box("page", 0, 0, WIDTH, y + 24, 8),
        *head(title), *scale(TOP - 13), *rows, *scale(y + 10),
        "</svg>\n",
    ])


def main():
    if sys.argv[1:] not in ([], ["--check"]):
        raise SystemExit(__doc__)
    drawn = picture(PAGE.read_text(encoding="utf-8"))
    if not sys.argv[1:]:
        PICTURE.write_text(drawn, encoding="utf-8")
    elif PICTURE.read_text(encoding="utf-8") != drawn:
        raise SystemExit(f"{PICTURE.name} isn't the picture of the tables in {PAGE.name}; bench/picture.py draws it")


if __name__ == "__main__":
    main()
