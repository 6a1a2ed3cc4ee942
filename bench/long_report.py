"""A report of many nodes, made here: nodes join by halves, renew their fences, stop, are taken over, and come back."""
import random

LEASE, ANSWER, WAIT = 3000, 1000, 4083
RING = 1 << 64


class Node:
    def __init__(self, number):
        self.number, self.starts, self.parts, self.runs = number, 0, [], False
        self.flights = 0

    def name(self):
        return f"{self.number}.{self.starts}"


class Made:
    """A run in the making: a line of the schedule for each event, and the lines that it makes."""

    def __init__(self, count, seed):
        self.chance = random.Random(seed)
        self.nodes = [Node(i + 1) for i in range(count)]
        self.time, self.line, self.frames = 0, 1, 0
        self.lines = []
        self.waiting = []

    def say(self, node, *words):
        self.lines.append(f"{self.line} {self.time} {node.name()} {self.time} {' '.join(words)}")

    def own(self, node, is_linked=True):
        fence = str(self.time + LEASE + ANSWER) if is_linked else "-"
        self.say(node, "own", spelled(node.parts), fence)

    def event(self):
        self.line += 1

    def sent(self, node):
        self.frames += 1
        self.say(node, "sent", f"{self.frames}-{self.frames}")

    def start(self, node):
        self.event()
        node.starts, node.runs, node.parts = node.starts + 1, True, []
        self.own(node, False)

    def give(self, giver, taker):
        """The upper half of the giver's greatest part."""
        lo, hi = max(giver.parts, key=lambda it: it[1] - it[0])
        if hi - lo < 1 << 40:
            return
        middle = (lo + hi) // 2
        self.event()
        giver.flights += 1
        giver.parts = sorted([it for it in giver.parts if it != (lo, hi)] + [(lo, middle)])
        self.say(giver, "gave", taker.name(), str(giver.flights), spelled([(middle + 1, hi)]))
        self.own(giver)
        self.event()
        taker.parts = joined([*taker.parts, (middle + 1, hi)])
        self.say(taker, "took", giver.name(), str(giver.flights), spelled([(middle + 1, hi)]))
        self.own(taker)

    def stop(self, node):
        self.event()
        self.say(node, "stopped")
        node.runs = False
        if node.parts:
            self.waiting.append((self.time + LEASE, "accuse", node.name(), node.parts))
        node.parts = []

    def heirs(self):
        """Accusations that are due, and heirs that are ripe."""
        due = [it for it in self.waiting if it[0] <= self.time]
        self.waiting = [it for it in self.waiting if it[0] > self.time]
        for _, what, victim, parts, *heir in due:
            if what == "accuse":
                alive = [it for it in self.nodes if it.runs and len(it.parts) < 8]
                node = self.chance.choice(alive)
                self.event()
                self.say(node, "accused", victim)
                self.event()
                self.say(node, "heir", victim, str(self.time + WAIT))
                self.waiting.append((self.time + WAIT, "take", victim, parts, node, node.starts))
            elif heir[0].runs and heir[0].starts == heir[1]:
                self.event()
                heir[0].parts = joined([*heir[0].parts, *parts])
                self.say(heir[0], "tookover", victim, spelled(parts))
                self.own(heir[0])

    def round(self):
        self.event()
        self.time += 100
        for node in self.nodes:
            if node.runs:
                self.event()
                self.own(node)
                self.sent(node)
        self.heirs()
        idle = [it for it in self.nodes if it.runs and not it.parts]
        owners = [it for it in self.nodes if it.runs and it.parts and len(it.parts) < 8]
        if idle and owners:
            self.give(max(owners, key=lambda it: max(hi - lo for lo, hi in it.parts)), self.chance.choice(idle))
        if self.chance.random() < 0.15 and len(owners) > 3:
            self.stop(self.chance.choice(owners[1:]))
        off = [it for it in self.nodes if not it.runs]
        if off and self.chance.random() < 0.5:
            self.start(self.chance.choice(off))


def spelled(parts):
    return ",".join(f"{lo:016x}-{hi:016x}" for lo, hi in parts) or "-"


def joined(parts):
    found = []
    for lo, hi in sorted(parts):
        if found and lo == found[-1][1] + 1:
            found[-1] = (found[-1][0], hi)
        else:
            found.append((lo, hi))
    return found


def long_report(count, lines):
    """So many lines of a run of so many nodes, as bytes."""
    made = Made(count, 7)
    made.start(made.nodes[0])
    made.nodes[0].parts = [(0, RING - 1)]
    made.lines = []
    made.own(made.nodes[0], False)
    while len(made.lines) < lines - 1:
        made.round()
    return ("\n".join([*made.lines[:lines - 1], f"end {made.line} {made.frames}"]) + "\n").encode()
