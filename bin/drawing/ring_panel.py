"""The ring over time: who holds which points, which are on their way, and what happened to whom."""
from bisect import bisect_left

from . import palette
from .boxes import grid
from .lines import RING, node_of
from .marks import gathered
from .svg import counted, number, text_width, thousands

# Above so many boxes a grid shows the ring.
MOST_BOXES = 6_000
# A block that is so high bears the name of its instance, if it is wide enough.
LABEL_HEIGHT, TINY_HEIGHT = 12, 8
# In a block that is so wide, the name is at its left edge, out of the way of the signs.
WIDE = 90


def point_text(point):
    return f"{point:016x}"


def spoken(box, unit):
    """The tooltip of a box."""
    until = "the end" if box.until is None else thousands(box.until)
    verb = "holds" if box.kind == "held" else "gave"
    end = ", to its fence" if box.is_lapsed else ""
    points = f"{point_text(box.lo)}-{point_text(box.hi)}"
    return f"{box.who} {verb} {points} from {thousands(box.since)} to {until} {unit}{end}{box.note}"


class RingPanel:
    def __init__(self, sheet, ring, points):
        self.sheet, self.ring, self.points = sheet, ring, points
        self.picture = sheet.picture

    def draw(self, twice):
        """The ring. `twice` has the places that two instances hold."""
        level = self.sheet.level
        self.picture.open("g", id="ring")
        if level.cell or len(self.ring.boxes) > MOST_BOXES:
            self.draw_grid(level.cell or 1)
        else:
            self.draw_boxes()
        self.draw_twice(twice)
        self.picture.close("g")
        self.draw_frame()
        self.draw_points()
        self.draw_marks()
        self.say_what_is_hidden()

    def draw_boxes(self):
        """Each box, exactly."""
        for box in self.ring.boxes:
            index = palette.index_of(node_of(box.who))
            self.sheet.colours.add(index)
            top, bottom = self.points.y(box.hi + 1), self.points.y(box.lo)
            class_ = f"{'n' if box.kind == 'held' else 'h'}{index}"
            self.picture.rect(box.x0, top, box.x1 - box.x0, bottom - top, class_, spoken(box, self.sheet.unit))
        for box in self.ring.boxes:
            self.draw_edge(box)
        for box in self.ring.boxes:
            self.draw_name(box)
        signs = sorted((self.sheet.axis.x(it.begins), y) for it, y in self.placed())
        for blank in self.ring.blanks():
            self.draw_blank(blank, signs)

    def draw_edge(self, box):
        """A faint edge where a fence ended the hold."""
        if box.is_lapsed:
            top, bottom = self.points.y(box.hi + 1), self.points.y(box.lo)
            title = f"the fence of {box.who}, at {thousands(box.until)} {self.sheet.unit}"
            self.picture.line(box.x1, top, box.x1, bottom, f"edge e{palette.index_of(node_of(box.who))}", title)

    def draw_name(self, box):
        top, bottom = self.points.y(box.hi + 1), self.points.y(box.lo)
        width, height = box.x1 - box.x0, bottom - top
        if box.kind == "held" and width >= text_width(box.who) + 4 and height >= TINY_HEIGHT:
            size, down = ("", 4) if height >= LABEL_HEIGHT else (" tiny", 3)
            ink = palette.ink_on(palette.index_of(node_of(box.who)))
            if width >= WIDE:
                self.picture.text(box.x0 + 6, (top + bottom) / 2 + down, box.who, ink + size)
            else:
                self.picture.text((box.x0 + box.x1) / 2, (top + bottom) / 2 + down, box.who, f"middle {ink}{size}")

    def draw_blank(self, blank, signs):
        """How long nobody holds what was held, where there is room to say it, and no sign is in the way."""
        x0, x1, lo, hi, ticks = blank
        top, bottom = self.points.y(hi + 1), self.points.y(lo)
        texts = ["nobody"]
        if ticks is not None:
            texts.insert(0, f"nobody for {thousands(round(ticks, 1))} {self.sheet.unit}")
        for text in texts:
            y, end = min(top + 15, (top + bottom) / 2 + 4), x0 + text_width(text) + 12
            near = signs[bisect_left(signs, (x0,)):bisect_left(signs, (end + 6,))]
            if end <= x1 and bottom - top >= LABEL_HEIGHT and not any(y - 16 < sign < y + 8 for _, sign in near):
                self.picture.text(x0 + 6, y, text, "faint")
                return

    def draw_grid(self, cell):
        """What falls together is drawn together: a path for each node."""
        runs = grid(self.ring.boxes, self.points, self.ring.axis, cell)
        for (node, kind), found in sorted(runs.items()):
            index = palette.index_of(node)
            self.sheet.colours.add(index)
            d = "".join(f"M{number(x)} {number(y)}h{number(w)}v{number(h)}h-{number(w)}z" for x, y, w, h in found)
            what = f"node {node} holds" if kind == "held" else f"given by node {node}"
            self.picture.path(d, f"{'n' if kind == 'held' else 'h'}{index}", what)
        ticks = f"{cell / self.ring.axis.scale:,.1f} {self.sheet.unit}" if self.ring.axis.scale else "a step"
        self.sheet.notes.append(
            f"{len(self.ring.boxes):,} blocks of the ring are drawn together on a grid of {cell:g} px ({ticks}): "
            "each cell shows who held its middle"
        )

    def draw_twice(self, twice):
        """Points that two instances hold at once, above all else."""
        for x0, x1, lo, hi, one, other in twice:
            top, bottom = self.points.y(hi + 1), self.points.y(lo)
            title = f"{one} and {other} both hold {point_text(lo)}-{point_text(hi)}"
            self.picture.rect(x0, top, max(x1 - x0, 1), max(bottom - top, 1), "both", title)

    def draw_frame(self):
        axis, points = self.ring.axis, self.points
        self.picture.rect(axis.left, points.top, axis.right() - axis.left, points.height, "frame")

    def draw_points(self):
        """The scale of points, on the left. On an even scale each cut has its tick."""
        points, left = self.points, self.ring.axis.left
        self.picture.open("g", id="points")
        cuts = points.cuts if points.is_even else [k << 61 for k in range(8)] + [RING]
        last = None
        for cut in cuts:
            y = points.y(cut)
            name = point_text(min(cut, RING - 1))
            self.picture.line(left - 5, y, left, y, "tick", f"point {name}")
            if last is None or last - y >= 11 or cut == RING and last - y >= 5:
                down = 8 if cut == RING else 1 if cut == 0 else 4
                self.picture.text(left - 8, y + down, name, "right mono small")
                last = y
        self.picture.close("g")
        if points.is_even:
            self.sheet.notes.append("the points are not to scale: each stretch between two cuts has the same height")

    def draw_marks(self):
        """What happened, at the ranges that it is about."""
        self.picture.open("g", id="ring-marks")
        in_rows = [(it, y, round(y / self.sheet.level.together)) for it, y in self.placed()]
        for x, y, kind, title in gathered(self.sheet, in_rows):
            self.picture.use(f"m-{kind}", x, y, title)
        self.picture.close("g")

    def placed(self):
        """The signs in the ring, each with its y."""
        return [(it, self.middle(it.place)) for it in self.sheet.marks if it.place and it.kind != "stopped"]

    def middle(self, ranges):
        """The middle of the greatest interval."""
        lo, hi = max(ranges, key=lambda it: self.points.y(it[0]) - self.points.y(it[1] + 1))
        return (self.points.y(lo) + self.points.y(hi + 1)) / 2

    def say_what_is_hidden(self):
        if self.ring.thin:
            blocks = counted(self.ring.thin, "block of the ring is", "blocks of the ring are")
            self.sheet.notes.append(f"{blocks} too short to be seen at this scale: cut the time by FROM TO")
        if self.points.hidden:
            stretches = counted(self.points.hidden, "stretch of points is", "stretches of points are")
            self.sheet.notes.append(f"{stretches} too thin to be seen at this scale")
