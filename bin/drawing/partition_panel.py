"""A lane for each partition: primaries with their epochs, the other replicas, reconfigurations, and committed
entries.
"""
from . import palette
from .lines import epoch_text, node_of, order_of
from .marks import gathered
from .svg import counted, number, thousands

PRIMARY, REPLICA, CHANGE, RISE, GAP = 14, 4, 8, 26, 10
MOST_ROWS = 8
# Rising lines of a lane: those of the greatest data loss numbers.
MOST_LOSSES = 50


class Lane:
    """The height of a partition's parts: a bracket of reconfigurations, primaries, other replicas, and the rising
    line.
    """

    def __init__(self, partition, top):
        self.partition, self.top = partition, top
        self.primaries = rows(partition.primaries, 3)
        members = sorted({it.who for it in partition.replicas}, key=order_of)
        self.members = {who: min(i, MOST_ROWS - 1) for i, who in enumerate(members)}
        self.replica_top = top + CHANGE + PRIMARY * max((i for _, i in self.primaries), default=0) + PRIMARY + 2
        self.rise_top = self.replica_top + REPLICA * (max(self.members.values(), default=-1) + 1) + 3
        self.bottom = self.rise_top + (RISE if partition.commits else 0)


def rows(tenures, most):
    """Each tenure with the row that is free for it: two primaries of one time do not cover each other."""
    free, found = [], []
    for it in sorted(tenures, key=lambda it: it.begins):
        row = next((i for i, end in enumerate(free) if end <= it.begins), len(free))
        if row >= most:
            row = most - 1
        free[row:row + 1] = [it.ends]
        found.append((it, row))
    return found


class PartitionPanel:
    def __init__(self, sheet, partitions, top):
        self.sheet, self.picture, self.axis, self.top = sheet, sheet.picture, sheet.axis, top
        shown = sorted(partitions.values(), key=lambda it: it.number)[:sheet.level.partitions]
        if len(partitions) > len(shown):
            sheet.notes.append(f"there is no lane for {counted(len(partitions) - len(shown), 'more partition')}")
        self.lanes = []
        for it in shown:
            self.lanes.append(Lane(it, top))
            top = self.lanes[-1].bottom + GAP
        self.height = top - self.top

    def draw(self):
        self.picture.open("g", id="partitions")
        for lane in self.lanes:
            self.picture.line(self.axis.left, lane.bottom + GAP / 2, self.axis.right(), lane.bottom + GAP / 2, "rule")
            self.picture.text(self.axis.left - 8, lane.top + CHANGE + 11, f"partition {lane.partition.number}", "right")
            self.draw_changes(lane)
            self.draw_replicas(lane)
            self.draw_primaries(lane)
            self.draw_commits(lane)
        self.picture.close("g")

    def times(self, span):
        return f"from {thousands(span.begins[0])} to {thousands(span.ends[0])} {self.sheet.unit}"

    def width(self, span):
        """The places of a span, if it is seen."""
        x0, x1 = self.axis.x(span.begins), self.axis.x(span.ends)
        if x1 <= self.axis.left or x0 >= self.axis.right():
            return None
        return x0, x1

    def seen(self, spans, key):
        """Spans with their places. Those of one key that fall together are one."""
        last, found = {}, []
        for it in sorted(spans, key=lambda it: it.begins):
            places = self.width(it)
            if not places:
                continue
            before = last.get(key(it))
            if before and places[1] - before[0] < self.sheet.level.together / 3:
                before[1] = max(before[1], places[1])
                self.sheet.together += 1
            else:
                last[key(it)] = [*places, it]
                found.append(last[key(it)])
        return found

    def draw_primaries(self, lane):
        row_of = {id(it): row for it, row in lane.primaries}
        for x0, x1, it in self.seen((it for it, _ in lane.primaries), lambda it: row_of[id(it)]):
            index = palette.index_of(node_of(it.who))
            self.sheet.colours.add(index)
            y = lane.top + CHANGE + row_of[id(it)] * PRIMARY
            title = f"{it.who} is primary of {lane.partition.number} in epoch {epoch_text(it.epoch)}, {self.times(it)}"
            self.picture.rect(x0, y, max(x1 - x0, 1), PRIMARY - 2, f"n{index}", title)
            for words in (f"{it.who} in {epoch_text(it.epoch)}", epoch_text(it.epoch)):
                if x1 - x0 >= 6.2 * len(words) + 4:
                    self.picture.text(x0 + 3, y + 9.5, words, f"small {palette.ink_on(index)}")
                    break

    def draw_replicas(self, lane):
        """A thin bar for each replica from its promise on. Where it is the primary, the bar above says so."""
        promises = []
        for x0, x1, it in self.seen(lane.partition.replicas, lambda it: lane.members[it.who]):
            index = palette.index_of(node_of(it.who))
            self.sheet.colours.add(index)
            y = lane.replica_top + lane.members[it.who] * REPLICA
            title = f"{it.who} takes part in epoch {epoch_text(it.epoch)} {self.times(it)}"
            self.picture.rect(x0, y, max(x1 - x0, 0.5), REPLICA - 1, f"n{index} replica", title)
        for it in lane.partition.promises:
            row = lane.members[it.who]
            promises.append((it, lane.replica_top + row * REPLICA + 1.5, row))
        for x, y, kind, title in gathered(self.sheet, promises):
            self.picture.use(f"m-{kind}", x, y, title)

    def draw_changes(self, lane):
        """A bracket from the first line of an epoch to `configured`; dashed if it was superseded, or is open."""
        for x0, x1, it in self.seen(lane.partition.changes.values(), lambda it: it.how):
            y = lane.top + 5
            title = f"reconfiguration to {epoch_text(it.epoch)}: {it.how}, {self.times(it)}"
            d = f"M{number(x0)} {number(y + 3)}v-4H{number(max(x1, x0 + 1))}"
            if it.how == "configured":
                self.picture.path(f"{d}v4", "change", title)
            else:
                self.picture.path(d, "change dashed", title)

    def draw_commits(self, lane):
        """Committed entries as a rising line, one for each data loss number: `lose` begins a new one."""
        most = max((it.lsn for it in lane.partition.commits), default=0)
        if not most:
            return
        of_loss = {}
        for it in lane.partition.commits:
            of_loss.setdefault(it.epoch[0], []).append(it)
        losses = sorted(of_loss)[-MOST_LOSSES:]
        floor = lane.rise_top + RISE - 4
        for loss, following in zip(losses, [*losses[1:], None]):
            right = self.axis.right() if following is None else self.axis.x(of_loss[following][0].begins)
            points = self.rise(of_loss[loss], most, floor, right)
            if points:
                title = f"committed entries of {lane.partition.number}, data loss number {loss}: up to {most:,}"
                self.picture.path(points, "rise", title)
        self.picture.text(self.axis.left - 8, floor - 6, f"committed: {most:,}", "right small faint")

    def rise(self, commits, most, floor, right):
        """Steps of one px at least: of what falls together the last counts. The line goes on to `right`."""
        places, x1, top = {}, self.axis.left, 0
        for it in commits:
            x = self.axis.x(it.begins)
            if x <= self.axis.right():
                top = max(top, it.lsn)
                places[round(x, 1) if len(commits) < 1000 else round(x)] = top
        if not places or self.axis.x(commits[0].begins) >= self.axis.right():
            return ""
        d = ""
        for x, lsn in sorted(places.items()):
            y = number(floor - (RISE - 8) * lsn / most)
            d += f"H{number(x)}V{y}" if d else f"M{number(x)} {number(floor)}V{y}"
            x1 = x
        return d + f"H{number(max(right, x1))}"
