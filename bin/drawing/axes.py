"""Where a time and a point are in the picture.

Time goes to the right. In a short report much happens at one time, so each step gets a width of its own beside the
time that passes: then a place between two steps is that far between their times. A long report has times alone.
Points go upwards. A ring whose cuts lie too near together to be seen gets stretches of one height instead of its
scale.
"""
from bisect import bisect_left, bisect_right

from .lines import RING
from .spans import AFTER_ALL

# The share of the width that steps may take, the least width of a step that can be seen, and the widest.
STEP_SHARE = 0.62
LEAST_STEP = 2.2
WIDEST_STEP = 34
# The least height of a stretch on an even scale of points. With more cuts it would show no more than the true scale.
LEAST_STRETCH = 1.5
# Behind the last time: what holds when the report ends.
TAIL = 34


class TimeAxis:
    """Maps moments of the window first..last to x. `steps` has the time and the line of each step."""

    def __init__(self, first, last, steps, left, width):
        self.first, self.last, self.left, self.width = first, last, left, width
        self.begin = bisect_left(steps, (first,))
        self.steps = steps[self.begin:bisect_right(steps, (last, float("inf")))]
        gaps = max(len(self.steps) - 1, 0)
        self.tail = TAIL if gaps or last > first else width
        room = width - self.tail
        self.step = min(WIDEST_STEP, STEP_SHARE * room / max(gaps, 1))
        if last == first:
            self.step = room / max(gaps, 1)
        self.has_steps = bool(self.steps) and (self.step >= LEAST_STEP or last == first)
        if not self.has_steps:
            self.step = 0
        spare = room - self.step * gaps
        self.scale = spare / (last - first) if last > first else 0
        self.knots = [self.of(i, it[0]) for i, it in enumerate(self.steps)] if self.has_steps else []
        self.times = [it[0] for it in self.steps] if self.has_steps else []
        self.end = self.knots[-1] + (last - self.times[-1]) * self.scale if self.knots else left + room

    def of(self, index, time):
        return self.left + index * self.step + (time - self.first) * self.scale

    def x(self, moment):
        """The place of a step. Before and behind the window it is at its edge."""
        time, step = moment
        if time < self.first:
            return self.left
        if time > self.last or time == self.last and step == AFTER_ALL:
            return self.right()
        if not self.has_steps or step == AFTER_ALL:
            return self.left + (time - self.first) * self.scale
        return self.knots[step - self.begin] if step - self.begin < len(self.knots) else self.end

    def x_at(self, time):
        """The place of a time: before all steps of this time."""
        if time <= self.first or not self.has_steps:
            return self.left + max(0, min(time, self.last) - self.first) * self.scale
        if time > self.last:
            return self.right()
        index = bisect_left(self.times, time)
        if index == len(self.times):
            return self.knots[-1] + (time - self.times[-1]) * self.scale if self.times[-1] < self.last else self.end
        if self.times[index] == time or index == 0:
            return self.knots[index] if self.times[index] == time else self.left + (time - self.first) * self.scale
        before, after = self.times[index - 1], self.times[index]
        share = (time - before) / (after - before)
        return self.knots[index - 1] + share * (self.knots[index] - self.knots[index - 1])

    def has_still(self):
        """Whether several steps have one time."""
        return any(a == b for a, b in zip(self.times, self.times[1:]))

    def right(self):
        return self.end + self.tail


class PointAxis:
    """Maps points to y, from `top` down to `top + height`."""

    def __init__(self, cuts, top, height):
        self.top, self.height = top, height
        self.cuts = sorted({0, RING, *cuts})
        near = sum(1 for a, b in zip(self.cuts, self.cuts[1:]) if (b - a) * height < 2 * RING)
        self.is_even = near * 4 > len(self.cuts) - 1 and len(self.cuts) * LEAST_STRETCH <= height
        self.hidden = 0 if self.is_even else near

    def y(self, point):
        """The lower edge of a point. The upper edge of the last one is that of RING."""
        if not self.is_even:
            return self.top + self.height * (RING - point) / RING
        index = bisect_right(self.cuts, point) - 1
        if index >= len(self.cuts) - 1:
            return self.top
        lo, hi = self.cuts[index], self.cuts[index + 1]
        return self.top + self.height * (1 - (index + (point - lo) / (hi - lo)) / (len(self.cuts) - 1))
