"""The ring over time as boxes: an interval of points that an instance holds, or that is on its way, from a place to a
place.
"""
import heapq
from bisect import bisect_left, insort
from itertools import islice
from typing import NamedTuple

from .lines import node_of, order_of
from .spans import AFTER_ALL


class Box(NamedTuple):
    """`kind` is `held` or `flight`.

    `since` and `until` are times for the tooltip; `fence` is drawn where the hold ended at one.
    """

    x0: float
    x1: float
    lo: int
    hi: int
    who: str
    kind: str
    since: int
    until: int
    is_lapsed: bool
    note: str


# A good run has fewer boxes at one time: 64 nodes with 32 intervals each, and flights. A grid shows the last of more.
MOST_ACTIVE = 3_000
# A box that is narrower is left out, and counted.
THINNEST = 0.02


class Ring:
    """The boxes of a run on a time axis."""

    def __init__(self, run, axis, has_fences):
        self.axis = axis
        self.has_fences = has_fences
        self.apart = run.apart
        self.boxes = []
        self.thin = 0
        self.cut_at = {} if has_fences else known_ends(run)
        for stretches in by_instance(run.stretches):
            self.hold(stretches)
        reporters = {it.who for it in run.lives}
        for it in run.flights.values():
            if it.begins and it.receiver in reporters:
                self.fly(it, it.ends)
        self.boxes.sort(key=lambda it: (it.x0, it.lo))

    def hold(self, stretches):
        """What one instance held. An interval that stays is one box, though others beside it come and go."""
        open_boxes, end = {}, None
        for stretch in stretches:
            begins, ends, until = self.edges(stretch)
            if end != stretch.begins:
                self.shut(open_boxes, stretch.who)
                open_boxes = {}
            gone = {part: it for part, it in open_boxes.items() if part not in stretch.ranges}
            self.shut(gone, stretch.who)
            open_boxes = {
                part: (open_boxes[part][0] if part in open_boxes else (begins, stretch.begins[0]), ends, until, stretch)
                for part in stretch.ranges
            }
            end = stretch.ends
        if stretches:
            self.shut(open_boxes, stretches[-1].who)

    def edges(self, stretch):
        """Where a stretch begins and ends, and its last time: its end, its fence, or where its heir took over."""
        begins, ends, until = self.axis.x(stretch.begins), self.axis.x(stretch.ends), stretch.ends[0]
        if self.has_fences and stretch.lapse is not None:
            ends, until = max(begins, min(ends, self.axis.x_at(stretch.lapse))), stretch.lapse
        elif not self.has_fences:
            cut = self.cut_at.get(stretch.who)
            if stretch.ends[1] == AFTER_ALL:
                ends, until = self.axis.right(), None
            if cut and stretch.begins < cut and (until is None or cut < stretch.ends):
                ends, until = self.axis.x(cut), cut[0]
        return begins, ends, until

    def shut(self, open_boxes, who):
        for (lo, hi), ((x0, since), x1, until, stretch) in open_boxes.items():
            fence = "" if stretch.fence is None or not self.has_fences else f", fence at reading {stretch.fence:,}"
            lapsed = self.has_fences and stretch.lapse is not None and x1 < self.axis.right()
            self.add(Box(x0, x1, lo, hi, who, "held", since, until, lapsed, fence))

    def fly(self, flight, ends):
        x0, x1 = self.axis.x(flight.begins), self.axis.x(ends) if ends else self.axis.right()
        until = ends[0] if ends else None
        how = {"took": "taken", "returned": "returned", "tookover": "taken over"}.get(flight.how, "not taken yet")
        note = f" to {flight.receiver}, flight {flight.number}, {how}"
        for lo, hi in flight.ranges:
            self.add(Box(x0, x1, lo, hi, flight.giver, "flight", flight.begins[0], until, False, note))

    def add(self, box):
        if box.x1 - box.x0 >= THINNEST:
            self.boxes.append(box)
        elif self.axis.left < box.x1 and box.x0 < self.axis.right():
            self.thin += 1

    def cuts(self):
        return {it.lo for it in self.boxes} | {it.hi + 1 for it in self.boxes}

    def blanks(self):
        """What nobody holds behind each hold: (x0, x1, lo, hi, ticks).

        No ticks where it lasts to the end, or ends in parts.
        """
        found, starts = [], [it.x0 for it in self.boxes]
        for box in self.boxes:
            if box.kind != "held" or box.x1 >= self.axis.right() - THINNEST:
                continue
            begin = bisect_left(starts, box.x1 - THINNEST)
            following = (it for it in islice(self.boxes, begin, None) if it.lo <= box.hi and box.lo <= it.hi)
            first = next(following, None)
            if first is None:
                found.append((box.x1, self.axis.right(), box.lo, box.hi, None))
            elif first.x0 > box.x1 + 20:
                is_whole = first.lo <= box.lo and box.hi <= first.hi
                found.append((box.x1, first.x0, box.lo, box.hi, first.since - box.until if is_whole else None))
        return found

    def held_twice(self, most):
        """Places that two instances hold: (x0, x1, lo, hi, one, other). In a good run there are none.

        Where times are taken to be apart, an overlap that is not longer does not count.
        """
        found, active, ends = [], [], []
        for box in self.boxes:
            if box.kind != "held":
                continue
            while ends and ends[0][0] <= box.x0 + THINNEST:
                _, item = heapq.heappop(ends)
                del active[bisect_left(active, item)]
            item = (box.lo, box.hi, box.x1, box.who)
            at = bisect_left(active, item)
            for other in active[max(at - 1, 0):at + 1]:
                is_long = min(box.x1, other[2]) - box.x0 > self.apart * self.axis.scale
                if other[3] != box.who and other[0] <= box.hi and box.lo <= other[1] and is_long:
                    lo, hi = max(box.lo, other[0]), min(box.hi, other[1])
                    found.append((box.x0, min(box.x1, other[2]), lo, hi, other[3], box.who))
            insort(active, item)
            heapq.heappush(ends, (box.x1, item))
            if len(found) >= most:
                break
        return found


def by_instance(stretches):
    found = {}
    for it in stretches:
        found.setdefault(it.who, []).append(it)
    return [found[who] for who in sorted(found, key=order_of)]


def known_ends(run):
    """When each instance was taken over, or its node's next one started.

    Without fences its hold is drawn to there at most.
    """
    found = {}
    for it in run.marks:
        if it.kind == "tookover":
            victim = it.text.split(" ")[-1]
            found[victim] = min(it.begins, found.get(victim, it.begins))
    lives = sorted(run.lives, key=lambda it: order_of(it.who))
    for it, following in zip(lives, lives[1:]):
        if node_of(it.who) == node_of(following.who):
            found[it.who] = min(following.begins, found.get(it.who, following.begins))
    return found


def grid(boxes, points, axis, cell):
    """What falls together, drawn together: the boxes on a grid of cells.

    Gives runs of cells (x, y, width, height) by holder and kind. A cell shows what has its middle. Runs of one column
    that go on in the next one are one.
    """
    strips = [strip(box, points, cell) for box in boxes]
    runs, previous, starts, active, at = {}, {}, {}, [], 0
    columns = int((axis.right() - axis.left) / cell)
    for column in range(columns + 1):
        middle = axis.left + (column + 0.5) * cell
        while at < len(boxes) and boxes[at].x0 <= middle:
            if boxes[at].x1 > middle and strips[at][0] < strips[at][1]:
                heapq.heappush(active, (boxes[at].x1, at))
            at += 1
        while active and active[0][0] <= middle:
            heapq.heappop(active)
        if len(active) > MOST_ACTIVE:
            active = sorted(active, key=lambda it: it[1])[-MOST_ACTIVE // 2:]
            heapq.heapify(active)
        present = pieces(sorted(strips[i] for _, i in active)) if column < columns else {}
        for key in previous:
            if key not in present:
                y0, y1, node, kind = key
                x = axis.left + starts.pop(key) * cell
                runs.setdefault((node, kind), []).append((x, y0, axis.left + column * cell - x, y1 - y0))
        for key in present:
            starts.setdefault(key, column)
        previous = present
    return runs


def strip(box, points, cell):
    """The rows of a box on the grid, as y from and to, with its node and kind."""
    y0 = points.top + round((points.y(box.hi + 1) - points.top) / cell) * cell
    y1 = points.top + round((points.y(box.lo) - points.top) / cell) * cell
    return y0, y1, node_of(box.who), box.kind


def pieces(strips):
    """The strips of one column, downwards: neighbours of one holder are one piece."""
    found, last = {}, None
    for y0, y1, node, kind in strips:
        if last and last[1] >= y0 and last[2:] == (node, kind):
            found.pop(last)
            y0, y1 = last[0], max(y1, last[1])
        last = (y0, y1, node, kind)
        found[last] = True
    return found
