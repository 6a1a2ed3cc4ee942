"""Plots of what grows with something: by the length of a schedule, of a lease, and by the number of writes."""
import math
import re

from drawing.svg import Picture, nice_steps, text_width, thousands

WIDTH = 760
OURS, PLAIN, OTHER = 0, 1, 5
ROW = 24


def rows_of(page, first, second):
    """The cells of each row of the one table that begins with these two headings."""
    found = []
    for table in re.findall(r"(?:^\|.*\n)+", page, re.M):
        lines = [[it.strip() for it in line.strip("|\n").split("|")] for line in table.splitlines()]
        if lines[0][:2] == [first, second]:
            found.append(lines[2:])
    if len(found) != 1:
        raise SystemExit(f"docs/measured.md has {len(found)} tables that begin with: {first}, {second}")
    return found[0]


def value(text):
    """The number of a cell: of two numbers the greater one."""
    return float(re.findall(r"[\d,.]*\d", text)[-1].replace(",", ""))


class Axis:
    """A scale of logarithms or an even one, from `begin` to `end` on the picture."""

    def __init__(self, least, most, begin, end, is_even=False):
        self.at = (lambda it: it) if is_even else math.log10
        self.least, self.most, self.is_even = self.at(least), self.at(most), is_even
        self.begin, self.end = begin, end

    def place(self, it):
        return self.begin + (self.at(it) - self.least) / (self.most - self.least) * (self.end - self.begin)

    def ticks(self):
        if self.is_even:
            return nice_steps(self.least, self.most, 6)
        return [10 ** k for k in range(math.ceil(self.least), math.floor(self.most) + 1)]


class Panel:
    """A plot with both axes, and series in it."""

    def __init__(self, picture, across, up, label, unit):
        self.picture, self.across, self.up = picture, across, up
        for tick in across.ticks():
            picture.line(across.place(tick), up.end, across.place(tick), up.begin, "rule")
            picture.text(across.place(tick), up.begin + 15, thousands(tick), "middle small")
        for tick in up.ticks():
            picture.line(across.begin, up.place(tick), across.end, up.place(tick), "rule")
            picture.text(across.begin - 6, up.place(tick) + 4, thousands(tick), "right small")
        picture.text((across.begin + across.end) / 2, up.begin + 32, label, "middle faint")
        picture.text(across.begin, up.end - 8, unit, "faint small")

    def series(self, name, points, index, is_full=True):
        """A line with a dot for each point: full, or hollow and dashed."""
        places = [(self.across.place(x), self.up.place(y)) for x, y in points]
        d = "M" + "L".join(f"{x:.1f} {y:.1f}" for x, y in places)
        self.picture.path(d, f"series e{index}" + ("" if is_full else " dashed"))
        for (x, y), (of, it) in zip(places, points):
            class_ = f"n{index}" if is_full else f"hollow e{index}"
            self.picture.element("circle", f"{name}: {thousands(it)} at {thousands(of)}", cx=x, cy=y, r=4, class_=class_)


def keys(picture, x, y, entries):
    """The legend: a line, a dot and a name for each series."""
    for name, index, is_full in entries:
        picture.path(f"M{x} {y - 4}h22", f"series e{index}" + ("" if is_full else " dashed"))
        picture.element("circle", cx=x + 11, cy=y - 4, r=4, class_=f"n{index}" if is_full else f"hollow e{index}")
        picture.text(x + 28, y, name)
        x += 44 + text_width(name)


def head(picture, title, words):
    picture.text(12, 24, title, "big")
    picture.text(12, 42, words, "faint")
    return title


def lengths(page):
    """Events a second and memory by the length of a schedule, beside plain."""
    picture, top, bottom, kinds = Picture(WIDTH), 96, 300, {}
    title = head(picture, "By the length of a schedule", "filled: this program; hollow: plain (docs/measured.md)")
    for name, lines, *cells in rows_of(page, "Schedule", "Lines"):
        kinds.setdefault(name, []).append((value(lines), *(None if it == "-" else value(it) for it in cells)))
    panels = [
        Panel(picture, Axis(800, 1.3e6, 76, 366), Axis(5e3, 1e7, bottom, top), "lines", "events a second"),
        Panel(picture, Axis(800, 1.3e6, 446, 736), Axis(1, 1000, bottom, top), "lines", "MB of memory"),
    ]
    for index, (name, found) in enumerate(kinds.items()):
        for panel, (ours, plain) in zip(panels, ((1, 2), (3, 4))):
            panel.series(f"{name}, plain", [(it[0], it[plain]) for it in found if it[plain]], index, False)
            panel.series(name, [(it[0], it[ours]) for it in found], index)
    keys(picture, 12, 68, [(name, index, True) for index, name in enumerate(kinds)])
    picture.height = bottom + 44
    return picture, title


def recovery(page):
    """The time to recover, a row for each kind of kill: from the least to the most, with the middle, and the bound."""
    found = rows_of(page, "Killed", "Lease, ms")
    picture, top, left = Picture(WIDTH), 76, 330
    title = head(picture, "Until all is whole again after a kill",
                 "bars from the least to the most, dots: the middle; hollow: the bound (docs/measured.md)")
    bottom = top + ROW * len(found)
    axis = Axis(0, 1.05 * max(value(it) for row in found for it in row[5:7]), left, WIDTH - 30, True)
    for tick in axis.ticks():
        picture.line(axis.place(tick), top - 4, axis.place(tick), bottom, "rule")
        picture.text(axis.place(tick), bottom + 15, thousands(tick), "middle small")
    for i, (kind, lease, _, least, middle, most, bound, *_) in enumerate(found):
        y = top + (i + 0.5) * ROW
        index = OTHER if value(most) > value(bound) else OURS
        picture.text(left - 14, y + 4, f"{kind}, lease {lease}", "right")
        x0, x1 = axis.place(value(least)), axis.place(value(most))
        picture.rect(x0, y - 3, max(x1 - x0, 2), 6, f"n{index}", f"{kind}: {least} to {most} ms")
        if middle != "-":
            picture.element("circle", f"{kind}: the middle {middle} ms", cx=axis.place(value(middle)), cy=y, r=5, class_=f"n{index}")
        picture.element("circle", f"{kind}: the bound {bound} ms", cx=axis.place(value(bound)), cy=y, r=5, class_="hollow frame")
    picture.text((left + WIDTH - 30) / 2, bottom + 34, "ms; another colour where the bound was passed", "middle faint")
    picture.height = bottom + 46
    return picture, title


def records(page):
    """The bytes of an actor's records by the number of writes."""
    picture, top, bottom = Picture(WIDTH), 96, 300
    title = head(picture, "The bytes of an actor's records by the number of writes",
                 "writes of 100 bytes in one partition of three replicas (docs/measured.md)")
    found = [(value(row[0]), value(row[1]), value(row[2])) for row in rows_of(page, "Writes of 100 bytes", "Bytes of a member")
             if re.fullmatch(r"[\d,]+", row[0]) and row[0] != "0"]
    panel = Panel(picture, Axis(70, 15_000, 96, 560), Axis(10, 1e7, bottom, top), "writes", "bytes")
    for index, name in enumerate(("a member", "an arbitrator")):
        panel.series(name, [(row[0], row[index + 1]) for row in found], index)
    keys(picture, 12, 68, [("a member", 0, True), ("an arbitrator", 1, True)])
    picture.height = bottom + 44
    return picture, title
