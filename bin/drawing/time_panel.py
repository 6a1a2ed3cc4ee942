"""The scale of time: ticks with round numbers; in a short report each step, with its time below and its line above."""
from .svg import nice_steps, thousands


class TimePanel:
    def __init__(self, sheet):
        self.sheet, self.axis, self.picture = sheet, sheet.axis, sheet.picture

    def draw_below(self, y, label):
        """The times, under the panels."""
        self.picture.open("g", id="times")
        if self.axis.has_steps:
            self.draw_step_times(y)
        else:
            self.draw_round_times(y)
        self.picture.close("g")
        self.picture.text((self.axis.left + self.axis.right()) / 2, y + 34, label, "middle faint")

    def draw_round_times(self, y):
        axis = self.axis
        for time in nice_steps(axis.first, axis.last, 8):
            x = axis.x_at(time)
            self.picture.line(x, y, x, y + 5, "tick", f"time {time}")
            self.picture.text(x, y + 17, thousands(time), "middle small")

    def draw_step_times(self, y):
        """Each time at its first step, each fence, and the ends.

        Where several steps have one time, a bar says that it does not pass.
        """
        axis, used = self.axis, axis_edge(self.axis)
        others = [[axis.x_at(it), axis.x_at(it), it] for it in self.sheet.lapses() if self.sheet.is_seen(it)]
        if axis.first < axis.times[0]:
            others.append([axis.left, axis.left, axis.first])
        if axis.last > axis.times[-1]:
            others.append([axis.end, axis.end, axis.last])
        for x0, x1, time in sorted(moments(axis) + others):
            self.picture.line(x0, y, x0, y + 5, "tick", f"time {time}")
            if x1 > x0:
                self.picture.line(x0, y + 5, x1, y + 5, "still", f"time {time}: steps in their order")
            name = thousands(round(time, 1))
            if x0 - 3.2 * len(name) >= used:
                self.picture.text(x0, y + 17, name, "middle small")
                used = x0 + 3.2 * len(name) + 6

    def draw_above(self, y):
        """The lines of the steps, over the ring."""
        axis, used = self.axis, axis_edge(self.axis)
        if not axis.has_steps:
            return
        self.picture.open("g", id="steps")
        self.picture.text(axis.left - 8, y - 6, self.sheet.line_word, "right small faint")
        for x, (time, line) in zip(axis.knots, axis.steps):
            self.picture.line(x, y - 4, x, y, "tick", f"{self.sheet.line_word} {line}, time {time}")
            if x - 3.2 * len(str(line)) >= used:
                self.picture.text(x, y - 7, str(line), "middle small faint")
                used = x + 3.2 * len(str(line)) + 4
        self.picture.close("g")


def axis_edge(axis):
    return axis.left - 40


def moments(axis):
    """Each time with the places of its first and its last step."""
    found = []
    for x, (time, _) in zip(axis.knots, axis.steps):
        if found and found[-1][2] == time:
            found[-1][1] = x
        else:
            found.append([x, x, time])
    return found
