"""The page: a heading, the ring, the nodes, the partitions, the scale of time, and a legend, in at most MAX_PICTURE
bytes.
"""
from typing import NamedTuple

from . import marks, palette
from .axes import PointAxis, TimeAxis
from .boxes import Ring
from .lines import node_of, order_of
from .node_panel import NodePanel
from .partition_panel import PartitionPanel
from .ring_panel import RingPanel, point_text
from .svg import Picture, counted, text_width
from .time_panel import TimePanel

MAX_PICTURE = 2_000_000
WIDTH, LEFT, RIGHT = 1000, 138, 16
# The ring is higher if many nodes hold points, so that a block can bear its name.
LEAST_RING, MOST_RING, RING_OF_NODE = 300, 560, 9
MOST_NAMES = 4
# In the legend: from a sample to its words, and from them to the next sample.
SAMPLE, BETWEEN = 17, 15
MOST_TWICE = 100


class Level(NamedTuple):
    """How much falls together: the ring's grid (0 for none), the distance of marks, and how many lanes there are at
    most.
    """

    cell: float
    together: float
    lanes: int
    partitions: int


LEVELS = (Level(0, 6, 128, 32), Level(1, 8, 128, 24), Level(2, 12, 64, 12), Level(4, 24, 64, 8), Level(10, 60, 64, 4))


class Sheet:
    """What the panels share: the picture, the scale of time, and what the legend and the notes have to say."""

    def __init__(self, run, axis, level):
        self.run, self.axis, self.level = run, axis, level
        self.picture = Picture(WIDTH)
        self.marks = run.marks
        self.unit = "ms" if run.is_running else "ticks"
        self.line_word = "turn" if run.is_running else "line"
        self.colours, self.signs = set(), set()
        self.notes, self.alarms = [], []
        self.together, self.has_pale = 0, False

    def is_seen(self, time):
        return self.axis.first <= time <= self.axis.last

    def lapses(self):
        """The times at which a fence ended a hold."""
        return sorted({it.lapse for it in self.run.stretches if it.lapse is not None}) if self.run.has_fences else []

    def line_at(self, moment):
        time, step = moment
        return self.run.steps[step][1] if self.run.has_steps and step < len(self.run.steps) else "-"


def drawn(run, window):
    """The picture as text, at the finest level that fits."""
    axis = TimeAxis(window.first, window.last, run.steps if run.has_steps else [], LEFT, WIDTH - LEFT - RIGHT)
    ring = Ring(run, axis, run.has_fences)
    for level in LEVELS:
        text = draw(Sheet(run, axis, level), window, ring)
        if len(text.encode()) <= MAX_PICTURE:
            return text
    raise AssertionError("the coarsest level always fits")


def draw(sheet, window, ring):
    run, twice = sheet.run, ring.held_twice(MOST_TWICE)
    sheet.alarms += [*run.alarms, *named_twice(twice)]
    y = top = draw_heading(sheet, window)
    times = TimePanel(sheet)
    if run.stretches:
        y += 28
        times.draw_above(y)
        height = min(MOST_RING, max(LEAST_RING, RING_OF_NODE * len({node_of(it.who) for it in run.stretches})))
        RingPanel(sheet, ring, PointAxis(ring.cuts(), y, height)).draw(twice)
        y += height
    elif run.lives:
        sheet.notes.append("no line says that an instance owns points")
    y = draw_lanes(sheet, run, ring, y + 30)
    if run.lives:
        y += 4
        draw_fault(sheet, top + 10, y)
        times.draw_below(y, run.time_label)
        y = draw_legend(sheet, y + 58)
    y = draw_notes(sheet, [*run.notes, *sheet.notes], y)
    sheet.picture.height = y + 6
    return sheet.picture.written(run.title, palette.style(sorted(sheet.colours)), definitions(sheet))


def named_twice(twice):
    """Says that two instances hold one point: never in a run by the rules, so it comes first of all."""
    if not twice:
        return []
    _, _, lo, hi, one, other = twice[0]
    more = f", the first of {len(twice)} such places" if len(twice) > 1 else ""
    return [f"{one} and {other} both hold {point_text(lo)}-{point_text(hi)}{more}: drawn red"]


def definitions(sheet):
    return palette.hatches(sorted(sheet.colours)) + marks.definitions(sheet.signs)


def draw_heading(sheet, window):
    sheet.picture.text(12, 24, sheet.run.title, "big")
    y = 42
    sheet.picture.text(12, y, sheet.run.summary(window), "faint")
    for text in sheet.alarms:
        y += 16
        sheet.picture.text(12, y, text, "alarm head")
    return y


def draw_lanes(sheet, run, ring, y):
    """Nodes, then partitions."""
    nodes = NodePanel(sheet, run, ring, y)
    if nodes.height:
        sheet.picture.text(12, y - 6, "nodes", "head")
        nodes.draw()
        y += nodes.height
    if run.partitions:
        y += 26
        sheet.picture.text(12, y - 6, "partitions", "head")
        panel = PartitionPanel(sheet, run.partitions, y)
        panel.draw()
        y += panel.height
    return y


def draw_fault(sheet, top, bottom):
    """A report that ends with a fault has a line where it ends."""
    for it in sheet.run.faults:
        x = sheet.axis.right()
        sheet.picture.line(x, top, x, bottom, "fault", f"fault {it.fields[0]}")


def draw_legend(sheet, y):
    """Colours by node, each with its instances, then signs."""
    picture, x = sheet.picture, 12
    picture.open("g", id="legend")
    instances = {}
    for who in sorted({it.who for it in sheet.run.lives}, key=order_of):
        instances.setdefault(node_of(who), []).append(who)
    entries = [(node, whos) for node, whos in instances.items() if palette.index_of(node) in sheet.colours]
    for node, whos in entries[:64]:
        name = ", ".join(whos[:MOST_NAMES]) + (f" .. {whos[-1]}" if len(whos) > MOST_NAMES else "")
        width = SAMPLE + text_width(name)
        x, y = room(x, y, width)
        picture.rect(x, y - 9, 12, 10, f"n{palette.index_of(node)}")
        picture.text(x + SAMPLE, y, name)
        x += width + BETWEEN
    if len(entries) > 64:
        x, y = room(x, y, 150)
        picture.text(x, y, f"and {len(entries) - 64:,} more nodes", "faint")
    if len({palette.index_of(node) for node, _ in entries}) < len(entries):
        many = palette.COLOURS
        sheet.notes.append(f"there are {many} colours: nodes {many} numbers apart share one, and blocks bear names")
    x, y = 12, y + 20
    for draw, name in signs(sheet):
        width = SAMPLE + text_width(name)
        x, y = room(x, y, width)
        draw(x + 6, y - 4)
        picture.text(x + SAMPLE, y, name)
        x += width + BETWEEN
    picture.close("g")
    return y + 10


def room(x, y, width):
    return (x, y) if x + width <= WIDTH - 12 else (12, y + 17)


def signs(sheet):
    """What is in this picture beside colours: how to draw each sample around a place, and what it means."""
    picture, run, first, found = sheet.picture, sheet.run, min(sheet.colours, default=0), []

    def has(draw, words):
        found.append((draw, words))

    if run.stretches:
        has(lambda x, y: picture.rect(x - 6, y - 5, 12, 10, "frame"), "blank: nobody holds it")
        if any(it.begins for it in run.flights.values()):
            has(lambda x, y: picture.rect(x - 6, y - 5, 12, 10, f"h{first}"), "striped: in flight, the giver's colour")
        if run.has_lapses():
            has(lambda x, y: picture.line(x, y - 6, x, y + 6, f"edge e{first}"), "a fence ended the hold")
    if sheet.axis.has_still():
        has(lambda x, y: picture.line(x - 6, y, x + 6, y, "still"), "steps at one time, in their order")
    if sheet.has_pale:
        has(lambda x, y: picture.rect(x - 6, y - 2, 12, 4, f"n{first} gone"), "pale: it left, or says nothing more")
    if any(it.how == "took" for it in run.flights.values()):
        has(lambda x, y: picture.path(f"M{x} {y - 5}V{y + 4}m-3 -4l3 4l3 -4", "change flown"), "a flight was taken")
    for kind in marks.SIGNS:
        if kind in sheet.signs:
            has(lambda x, y, kind=kind: picture.use(f"m-{kind}", x, y), marks.SIGNS[kind][1])
    if run.partitions:
        has(lambda x, y: picture.path(f"M{x - 6} {y + 2}v-4h12v4", "change"), "reconfiguration, dashed if not done")
        if any(it.commits for it in run.partitions.values()):
            has(lambda x, y: picture.path(f"M{x - 6} {y + 4}h4v-4h4v-4h4", "rise"), "committed entries")
    return found


def draw_notes(sheet, notes, y):
    if sheet.together:
        marks_and_bars = counted(sheet.together, "mark or bar falls", "marks and bars fall")
        notes.append(f"{marks_and_bars} together with others: drawn with them")
    for text in notes:
        y += 15
        sheet.picture.text(12, y, text, "small faint")
    return y
