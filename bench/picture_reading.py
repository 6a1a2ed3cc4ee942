"""A picture and its report, each read for bench/pictures without the drawing code: who holds a point at a time."""
import bisect
import datetime
import xml.etree.ElementTree as tree


class Drawn:
    """A picture, read as a person reads it: ticks, rectangles, and their tooltips."""

    def __init__(self, written):
        page = tree.fromstring(written)
        self.groups = groups = {it.get("id"): it for it in page.iter() if it.get("id")}
        self.boxes = [self.box(it) for it in children(groups.get("ring"), "rect")]
        if not self.boxes:
            return
        ticks = children(groups["points"], "line")
        points = sorted((float(it.get("y1")), int(title(it).split()[1], 16)) for it in ticks)
        self.ys, self.points = [it[0] for it in points], [it[1] for it in points]
        self.steps = [self.step(it) for it in children(groups.get("steps"), "line")]
        ticks = [it for it in children(groups["times"], "line") if "steps" not in title(it)]
        self.ticks = sorted((float(it.get("x1")), float(title(it).split()[1])) for it in ticks)
        frame = next(it for it in page if it.get("class") == "frame")
        self.left = float(frame.get("x"))
        self.right = self.left + float(frame.get("width"))
        self.top, self.bottom = self.ys[0], self.ys[-1]
        texts = [(swatch.get("class"), name.text) for swatch, name in zip(groups["legend"], list(groups["legend"])[1:])
                 if tag(swatch) == "rect" and tag(name) == "text"]
        self.legend = {who: colour for colour, names in texts for who in names.replace(" .. ", ", ").split(", ")}

    def signs(self):
        """The signs in the lanes of nodes: where each is, and what its tooltip says."""
        return [(float(it.get("x")), title(it)) for it in children(self.groups.get("nodes"), "use")]

    def primaries(self):
        """The bars of primaries: where each begins and ends, and what its tooltip says."""
        bars = [it for it in children(self.groups.get("partitions"), "rect") if " is primary of " in title(it)]
        return [(float(it.get("x")), float(it.get("x")) + float(it.get("width")), title(it)) for it in bars]

    def line_places(self):
        """Where each line of the report is."""
        return {line: x for x, _, line in self.steps}

    def box(self, rect):
        x, y = float(rect.get("x")), float(rect.get("y"))
        return x, x + float(rect.get("width")), y, y + float(rect.get("height")), rect.get("class"), title(rect)

    def step(self, line):
        """`line 22, time 100`, or the same of a turn."""
        words = title(line).replace(",", "").split()
        return float(line.get("x1")), float(words[3]), int(words[1])

    def random_place(self, chance):
        return chance.uniform(self.left + 1, self.right - 1), chance.uniform(self.top + 1, self.bottom - 1)

    def place(self, x, y):
        """The time, the line and the point of a place. A long report has no lines on its scale."""
        return (*self.moment(x), self.point(y))

    def moment(self, x):
        if not self.steps:
            (x0, t0), (x1, t1) = self.ticks[0], self.ticks[-1]
            return t0 + (x - x0) * (t1 - t0) / (x1 - x0), None
        at = bisect.bisect_right(self.steps, (x, float("inf"), 0)) - 1
        if at < 0:
            return between(self.ticks[0], self.steps[0], x), None
        before = self.steps[at]
        if at + 1 < len(self.steps):
            return between(before, self.steps[at + 1], x), before[2]
        after = self.ticks[-1]
        if after[1] > before[1]:
            return min(between(before, after, x), after[1]), None
        return before[1], before[2]

    def point(self, y):
        at = min(max(bisect.bisect_right(self.ys, y) - 1, 0), len(self.ys) - 2)
        share = (y - self.ys[at]) / (self.ys[at + 1] - self.ys[at])
        return int(self.points[at] + share * (self.points[at + 1] - self.points[at]))

    def y(self, point):
        pairs = sorted(zip(self.points, self.ys))
        at = min(max(bisect.bisect_right(pairs, (point, float("inf"))) - 1, 0), len(pairs) - 2)
        (p0, y0), (p1, y1) = pairs[at], pairs[at + 1]
        return y0 + (point - p0) / (p1 - p0) * (y1 - y0)

    def owner(self, x, y):
        """Whose rectangle covers a place. Its colour must be that of the legend."""
        found = [it for it in self.boxes if it[0] <= x < it[1] and it[2] <= y < it[3]]
        if not found:
            return None
        if len(found) > 1:
            return f"{len(found)} at once"
        colour, words = found[0][4], found[0][5].split()
        if self.legend.get(words[0], colour)[1:] != colour[1:]:
            return f"{words[0]} in a wrong colour"
        return words[0] if words[1] == "holds" else f"flight of {words[0]}"


def between(one, other, x):
    return one[1] + (x - one[0]) / (other[0] - one[0]) * (other[1] - one[1])


def children(group, name):
    return [it for it in group or [] if tag(it) == name]


def tag(it):
    return it.tag.split("}")[-1]


def title(it):
    return next((child.text for child in it if tag(child) == "title"), "")


def as_one(logs):
    """The logs of several services as one report, with times since the first line.

    A process ends with its last line.
    """
    lines, first = [], None
    for log in logs:
        begun = None
        for text in log.splitlines():
            day, _, rest = text.partition(" ")
            at = round(datetime.datetime.fromisoformat(day[:-1] + "+00:00").timestamp() * 1000)
            if rest.startswith("begin ") or rest == "end":
                if begun:
                    lines.append((begun[0] if rest != "end" else at, f"{begun[1]} stopped"))
                begun = None
            if " - " in rest and rest[0].isdigit():
                turn, _, who, reading, words = rest.split(" ", 4)
                first = at if first is None else min(first, at)
                lines.append((at, f"{turn} {{}} {who} {reading} {words}"))
                begun = at, f"{turn} {{}} {who} {reading}"
        if begun:
            lines.append((begun[0], f"{begun[1]} stopped"))
    return "".join(f"{text.format(at - first)}\n" for at, text in sorted(lines, key=lambda it: it[0]))


class Told:
    """A report, read line by line. `owner` looks through it from the start for each question: slow, and plain."""

    def __init__(self, text):
        self.lines = []
        self.places = []
        for line in text.splitlines():
            words = line.split(" ")
            if words[0] in ("end", "fault"):
                continue
            if words[0] == "unheld":
                self.places.append(("unheld", words[1], ranges(words[2])))
            elif words[0] == "flight":
                self.places.append(("flight", words[1], ranges(words[4])))
            else:
                time = int(words[1]) if words[1] != "-" else None if words[3] == "-" else int(words[3])
                self.lines.append((time, int(words[0]), words[2], words[3], words[4], words[5:]))
        self.last = self.lines[-1][0] if self.lines else 0

    def signs(self):
        """What happened to whom: the line, and how a tooltip says it."""
        said = {
            "accused": lambda who, fields: f"{fields[0]} accused by {who}",
            "discharged": lambda who, fields: f"{who} discharged of {fields[0]}",
            "heir": lambda who, fields: f"{who} heir of {fields[0]}",
            "tookover": lambda who, fields: f"{who} took over from {fields[0]}",
            "left": lambda who, fields: f"{who} left: {fields[0]}",
            "stopped": lambda who, fields: f"{who} stopped",
        }
        return [(line, said[word](who, fields)) for _, line, who, _, word, fields in self.lines if word in said]

    def primaries(self):
        """The line of each primary with the line that ends it, and how a tooltip says it."""
        found = []
        for at, (_, line, who, _, word, fields) in enumerate(self.lines):
            if word == "primary":
                ends = [it[1] for it in self.lines[at + 1:] if it[2] == who and ends_role(it[4], it[5], fields)]
                text = f"{who} is primary of {fields[0]} in epoch {fields[1]},"
                found.append((line, ends[0] if ends else None, text))
        return found

    def owner(self, time, line, point):
        """Who holds a point at a time, behind a line if the time is that of the line."""
        time = min(time, self.last)
        owned, aloft, readings = {}, {}, {}
        for at, number, who, reading, word, fields in self.lines:
            is_past = at <= time and (line is None or number <= line)
            if reading != "-":
                readings.setdefault(who, []).append((at, int(reading), is_past))
            if is_past:
                self.follow(owned, aloft, who, word, fields)
        holders = [who for who, (parts, fence) in owned.items()
                   if holds(parts, point) and (fence == "-" or clock(readings[who], time) < int(fence))]
        holders += [f"flight of {giver}" for (giver, _), parts in aloft.items() if holds(parts, point)]
        return holders[0] if len(holders) == 1 else f"{len(holders)} at once" if holders else None

    def follow(self, owned, aloft, who, word, fields):
        if word == "own":
            owned[who] = (ranges(fields[0]), fields[1])
        elif word in ("stopped", "left"):
            owned.pop(who, None)
        elif word == "gave":
            aloft[who, fields[1]] = ranges(fields[2])
        elif word == "took":
            aloft.pop((fields[0], fields[1]), None)
        elif word == "returned":
            aloft.pop((who, fields[1]), None)
        elif word == "tookover":
            taken = ranges(fields[1])
            for key, parts in list(aloft.items()):
                if key[0] == who and all(holds(taken, lo) for lo, _ in parts):
                    del aloft[key]


def ends_role(word, fields, leading):
    """Whether a line ends the role of a primary: its process stopped or left, or it takes part in a later epoch."""
    if word in ("stopped", "left"):
        return True
    later = [int(it) for it in fields[1].split(".")] if len(fields) > 1 and "." in fields[1] else []
    is_later = later > [int(it) for it in leading[1].split(".")]
    return word in ("promised", "accepted", "adopted", "primary") and fields[0] == leading[0] and is_later


def clock(lines, time):
    """What a clock showed at a time, if it ran evenly between two lines, and after the last one as true time does."""
    before = [it for it in lines if it[2]][-1]
    after = next((it for it in lines if not it[2]), None)
    if after is None or after[0] == before[0]:
        return before[1] + time - before[0]
    return before[1] + (time - before[0]) * (after[1] - before[1]) / (after[0] - before[0])


def ranges(text):
    return [] if text == "-" else [(int(it[:16], 16), int(it[17:], 16)) for it in text.split(",")]


def holds(parts, point):
    return any(lo <= point <= hi for lo, hi in parts)
