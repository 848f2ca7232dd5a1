#!/usr/bin/env python3
"""picture.py [FIGURES [PICTURE]]

Draws requests a second from a file of figures (bench/figures.sh has its fields; bench/speed.csv) as SVG (docs/speed.svg):
on the disk each build of this program with 1, 2 and 4 files, each on a thread, beside the other stores, with a commit for each
change and with many changes a commit; and in memory each build again. Of loads on 1,000 subscribers with as many files it
takes the longest, and of two lines for one figure the later one. The caption ends with the file's first line, which tells the
machine.
"""
import csv
import pathlib
import sys
import textwrap
from xml.sax.saxutils import escape

SUBSCRIBERS = 1000
WIDTH, MARGIN, RIGHT, LETTER = 800, 20, 150, 7.2
ROW, BAR = 24, 16
DARK, LIGHT, GREY, PALE = "#1f4e79", "#bcd4ec", "#777777", "#dddddd"
TICKS = 5


class Figure:
    """A line of the file."""

    def __init__(self, line):
        self.where, self.program = line["where"], line["program"]
        self.subscribers, self.files = int(line["subscribers"]), int(line["files"])
        self.count = int(line["requests a file"])
        self.changes = int(line["changes a commit"] or 0)
        self.rate = int(line["requests a second"])
        self.syncs = line["syncs a change"]


def figures_in(name):
    """What the first line tells, and the figures."""
    with open(name, newline="") as file:
        lines = file.read().splitlines()
    told = " ".join(line.lstrip("# ") for line in lines if line.startswith("#"))
    return told, [Figure(line) for line in csv.DictReader(line for line in lines if not line.startswith("#"))]


def chosen(figures):
    """One figure for each place, program, number of files and size of a commit, in the order of their first lines."""
    found = {}
    for figure in figures:
        key = figure.where, figure.program, figure.files, figure.changes
        if figure.subscribers == SUBSCRIBERS and (key not in found or figure.count >= found[key].count):
            found[key] = figure
    return list(found.values())


def files_told(count):
    return f"{count} file" + ("s" if count > 1 else "")


def groups_of(figures, where):
    """The bars of a place: headings, each with its bars' names, figures, and colours."""
    names = list(dict.fromkeys(figure.program for figure in figures if not figure.changes))
    fills = dict(zip(names, [LIGHT, DARK] if len(names) == 2 else [DARK] * len(names)))
    here = [figure for figure in figures if figure.where == where]
    builds = sorted((figure for figure in here if not figure.changes), key=lambda figure: names.index(figure.program))
    for files in sorted({figure.files for figure in builds}):
        rows = [(figure.program, figure, fills[figure.program]) for figure in builds if figure.files == files]
        yield f"Yelmsker, {files_told(files)}", rows
    if where == "disk":
        yield from stores_of([figure for figure in here if figure.changes])


def stores_of(figures):
    """The bars of other stores, for each size of a commit."""
    for files, changes in sorted({(figure.files, figure.changes) for figure in figures}):
        rows = [figure for figure in figures if (figure.files, figure.changes) == (files, changes)]
        how = "a commit for each change" if changes == 1 else f"{changes} changes a commit"
        fill = GREY if changes == 1 else PALE
        yield f"Other stores, {files_told(files)}, {how}", [(figure.program, figure, fill) for figure in rows]


def step_for(most):
    """A round distance of ticks, so that a handful reach the greatest rate."""
    size = 1
    while True:
        for factor in 1, 2, 5:
            if factor * size * TICKS >= most:
                return factor * size
        size *= 10


class Drawing:
    """Elements of an SVG, from the top down. Left of the bars there is room for the longest of the names."""

    def __init__(self, names):
        self.y, self.parts, self.told = 0, [], []
        self.left = MARGIN + 8 + round(LETTER * max(map(len, names), default=0))

    def text(self, x, y, words, size=13, anchor="start", weight="normal", fill="#000000"):
        self.parts.append(
            f'<text x="{x:g}" y="{y:g}" font-size="{size}" text-anchor="{anchor}" font-weight="{weight}" '
            f'fill="{fill}" paint-order="stroke" stroke="#ffffff" stroke-width="3">{escape(words)}</text>'
        )

    def heading(self, words, size):
        self.y += size + 12
        self.text(MARGIN, self.y, words, size, weight="bold")

    def bar(self, name, figure, fill, scale):
        top, width = self.y + (ROW - BAR) / 2, max(1, figure.rate * scale)
        middle = self.y + ROW / 2 + 4.5
        self.text(self.left - 8, middle, name, anchor="end")
        self.parts.append(
            f'<rect x="{self.left}" y="{top:g}" width="{width:.1f}" height="{BAR}" fill="{fill}" stroke="#222222"/>'
        )
        syncs = f" ({figure.syncs} syncs a change)" if figure.syncs else ""
        self.text(self.left + width + 6, middle, f"{figure.rate:,}", weight="bold")
        self.told.append(f"{name}: {figure.rate:,} requests a second{syncs}")
        self.y += ROW

    def panel(self, title, groups):
        most = max(figure.rate for _, rows in groups for _, figure, _ in rows)
        step = step_for(most)
        scale = (WIDTH - self.left - RIGHT) / max(most, step)
        self.heading(title, 16)
        self.told.append(title)
        top, at = self.y + 8, len(self.parts)
        for heading, rows in groups:
            self.y += 24
            self.text(self.left, self.y, heading, 12, fill="#333333")
            self.told.append(heading)
            self.y += 2
            for name, figure, fill in rows:
                self.bar(name, figure, fill, scale)
        lines = []
        for rate in range(0, most + 1, step):
            x = self.left + rate * scale
            lines.append(f'<line x1="{x:.1f}" y1="{top}" x2="{x:.1f}" y2="{self.y + 6}" stroke="#cccccc"/>')
            self.text(x, self.y + 20, f"{rate:,}", 11, "middle", fill="#333333")
        self.parts[at:at] = lines
        self.text(WIDTH - MARGIN, self.y + 20, "requests a second", 11, "end", fill="#333333")
        self.y += 26

    def whole(self, title):
        height = self.y + 16
        return "\n".join(
            [
                f'<svg xmlns="http://www.w3.org/2000/svg" width="{WIDTH}" height="{height:g}" '
                f'viewBox="0 0 {WIDTH} {height:g}" font-family="sans-serif" role="img">',
                f"<title>{escape(title)}</title>",
                f"<desc>{escape('; '.join(self.told))}</desc>",
                f'<rect width="{WIDTH}" height="{height:g}" fill="#ffffff"/>',
                *self.parts,
                "</svg>\n",
            ]
        )


def loads_told(figures):
    """The lengths of the files, of this program's loads and of the stores'."""
    told = []
    for name, some in ("Yelmsker", [it for it in figures if not it.changes]), ("other stores", [it for it in figures if it.changes]):
        lengths = sorted({figure.count for figure in some})
        if lengths:
            told.append(f"{name}: files of {' and '.join(f'{count:,}' for count in lengths)} requests")
    return ", ".join(told)


def picture(told, figures):
    title = "Requests a second of the generated load; a longer bar is better"
    drawing = Drawing({figure.program for figure in figures})
    drawing.heading(title, 17)
    for where, name in ("disk", "On a disk"), ("memory", "In memory"):
        groups = list(groups_of(figures, where))
        if groups:
            drawing.panel(name, groups)
    caption = f"{SUBSCRIBERS:,} subscribers; {loads_told(figures)}. About a sixth of the requests change a row."
    drawing.y += 6
    for line in textwrap.wrap(caption, 115) + textwrap.wrap(told, 115):
        drawing.y += 16
        drawing.text(20, drawing.y, line, 12, fill="#333333")
    return drawing.whole(title)


def main(figures="bench/speed.csv", target="docs/speed.svg"):
    told, lines = figures_in(figures)
    pathlib.Path(target).write_text(picture(told, chosen(lines)))


if __name__ == "__main__":
    main(*sys.argv[1:])
