"""A lane for each node: when its instances ran and held points, what happened to them, and the flights between them."""
from . import palette
from .lines import node_of
from .marks import gathered
from .spans import Mark
from .svg import counted, text_width, thousands

MOST_HEIGHT, LEAST_HEIGHT = 20, 9.5
# A lane of this height has room for names.
NAMED_LANE = 12
# A shorter silence at the end is no news.
LEAST_SILENCE = 60
# With more flights than that, no arrows are drawn; with more instances, the bars of holds are not apart by instance.
MOST_ARROWS, MOST_LIVES = 2_000, 2_000
# So many arrows are drawn more faintly, or the lanes could not be read.
MANY_ARROWS = 60


def lane_name(node):
    return f"arbitrator {node - 1000}" if node > 1000 else f"node {node}"


class NodePanel:
    def __init__(self, sheet, run, ring, top):
        self.sheet, self.run, self.ring, self.top = sheet, run, ring, top
        self.picture, self.axis = sheet.picture, sheet.axis
        named = {node_of(it.who) for it in run.lives} | {node_of(it.who) for it in sheet.marks}
        nodes = sorted(named)[:sheet.level.lanes]
        if len(named) > len(nodes):
            sheet.notes.append(f"there is no lane for {counted(len(named) - len(nodes), 'more node')}")
        self.lane = max(LEAST_HEIGHT, min(MOST_HEIGHT, 400 / max(len(nodes), 1)))
        self.middle = {node: top + (i + 0.5) * self.lane for i, node in enumerate(nodes)}
        self.height = self.lane * len(nodes)

    def draw(self):
        self.picture.open("g", id="nodes")
        for node, y in self.middle.items():
            self.picture.line(self.axis.left, y, self.axis.right(), y, "rule")
            size = "right" if self.lane >= NAMED_LANE else "right small"
            self.picture.text(self.axis.left - 8, y + 4, lane_name(node), size)
        self.draw_lives()
        self.draw_holds()
        self.draw_flights()
        self.draw_marks()
        self.picture.close("g")

    def draw_lives(self):
        """A thin bar while an instance runs, pale once it has left the ring, or where no further line of it comes."""
        holds = {box.who: box.x1 for box in sorted(self.ring.boxes, key=lambda it: it.x1) if box.kind == "held"}
        for x0, x1, life, count in self.joined(self.run.lives):
            y = self.middle[node_of(life.who)]
            index = palette.index_of(node_of(life.who))
            self.sheet.colours.add(index)
            quiet = x1 if count > 1 else min(x1, max(x0, self.axis.x(life.left or life.heard)))
            if not life.left and (x1 - quiet < LEAST_SILENCE or holds.get(life.who, 0) >= x1 - 1):
                quiet = x1
            title = f"{life.who} ran from {thousands(life.begins[0])} to {thousands(life.ends[0])} {self.sheet.unit}"
            title += f", and {count - 1} more instances" if count > 1 else ""
            what, when = ("it left", life.left) if life.left else ("its last line is", life.heard)
            title += f"; {what} at {thousands(when[0])}"
            half = min(2, self.lane / 9)
            self.picture.rect(x0, y - half, quiet - x0, 2 * half, f"n{index}", title)
            if quiet < x1:
                self.sheet.has_pale = True
                self.picture.rect(quiet, y - half, x1 - quiet, 2 * half, f"n{index} gone", title)

    def joined(self, lives):
        """The lives that are seen. Those that fall together on one lane are one."""
        last, found = {}, []
        for it in sorted(lives, key=lambda it: it.begins):
            node = node_of(it.who)
            x0, x1 = self.axis.x(it.begins), self.axis.x(it.ends)
            if node not in self.middle or x1 <= self.axis.left or x0 >= self.axis.right():
                continue
            if node in last and x0 - last[node][0] < self.sheet.level.together / 3:
                last[node][1] = max(last[node][1], x1)
                last[node][3] += 1
                self.sheet.together += 1
            else:
                last[node] = [x0, max(x1, x0 + 0.5), it, 1]
                found.append(last[node])
        return found

    def draw_holds(self):
        """A thick bar while it holds points."""
        spans = {}
        is_crowded = len(self.run.lives) > MOST_LIVES
        for box in self.ring.boxes:
            node = node_of(box.who)
            if box.kind == "held" and node in self.middle:
                spans.setdefault(f"{node}.x" if is_crowded else box.who, []).append((box.x0, box.x1))
        for who, them in spans.items():
            y, index = self.middle[node_of(who)], palette.index_of(node_of(who))
            for x0, x1 in united(them, self.sheet.level.together / 12):
                half = self.lane * 0.36
                self.picture.rect(x0, y - half, x1 - x0, 2 * half, f"n{index}", f"{who} holds points")
                if x1 - x0 >= text_width(who, 10) + 5 and self.lane >= NAMED_LANE:
                    self.picture.text(x0 + 4, y + 3.5, who, f"small {palette.ink_on(index)}")

    def draw_flights(self):
        """A link that carried points: from the giver's lane to the receiver's, where they were taken."""
        found = {}
        for it in self.run.flights.values():
            giver, receiver = node_of(it.giver), node_of(it.receiver)
            if it.how == "took" and giver in self.middle and receiver in self.middle and self.sheet.is_seen(it.ends[0]):
                x = self.axis.x(it.ends)
                found.setdefault((giver, receiver, round(x / self.sheet.level.together)), []).append((x, it))
        if len(found) > MOST_ARROWS:
            self.sheet.notes.append(f"no arrows: {counted(len(found), 'flight')} would cover the lanes")
            found = {}
        faint = " many" if len(found) > MANY_ARROWS else ""
        for (giver, receiver, _), them in found.items():
            x, it = them[0]
            more = f", and {len(them) - 1} more flights" if len(them) > 1 else ""
            when = f"at {thousands(it.ends[0])} {self.sheet.unit}"
            title = f"{it.receiver} took flight {it.number} from {it.giver} {when}{more}"
            y0, y1 = self.middle[giver], self.middle[receiver]
            tip = 4 if y1 > y0 else -4
            self.picture.path(f"M{x:.1f} {y0:.1f}V{y1:.1f}m-3 {-tip}l3 {tip}l3 {-tip}", f"change flown{faint}", title)

    def draw_marks(self):
        starts = [Mark(it.begins, "start", it.who, f"{it.who} started", "-") for it in self.run.lives]
        for it in starts:
            it.line = self.sheet.line_at(it.begins)
        those = [it for it in [*starts, *self.silences(), *self.sheet.marks] if node_of(it.who) in self.middle]
        placed = [(it, self.middle[node_of(it.who)], node_of(it.who)) for it in those]
        for x, y, kind, title in gathered(self.sheet, placed):
            self.picture.use(f"m-{kind}", x, y, title)
        if self.lane >= NAMED_LANE:
            self.name_earlier(those)

    def name_earlier(self, marks):
        """Names the instance beside a sign that is on the bar of a later one: the later one was not accused."""
        for it in marks:
            others = (life for life in self.run.lives if life.begins < it.begins < life.ends and life.who != it.who)
            if self.sheet.is_seen(it.begins[0]) and any(node_of(life.who) == node_of(it.who) for life in others):
                self.picture.text(self.axis.x(it.begins) + 6, self.middle[node_of(it.who)] - 3, it.who, "tiny")

    def silences(self):
        """The last lines of processes that did not say how they ended, if the picture goes on for long behind them."""
        quiet = [it for it in self.run.broken_off if self.axis.x(it.heard) < self.axis.right() - LEAST_SILENCE]
        return [Mark(it.heard, "silent", it.who, f"the last line of {it.who}", "-") for it in quiet]


def united(spans, gap):
    """Intervals of x in their order, each with those that it reaches."""
    found = []
    for x0, x1 in sorted(spans):
        if found and x0 <= found[-1][1] + gap:
            found[-1][1] = max(found[-1][1], x1)
        else:
            found.append([x0, x1])
    return found
