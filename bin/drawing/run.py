"""What the lines of a report say of the ring and its nodes: who owned what, which ranges were on their way, who lived
when.
"""
from .lines import Ranges
from .partitions import Partition
from .spans import AFTER_ALL, Flight, Life, Mark, Stretch

ABOUT_PARTITIONS = {"promised", "adopted", "accepted", "primary", "committed", "configured", "superseded"}


class Instance:
    """What an instance has said so far.

    `seen` is its last line: a time, and what its clock showed. `had` is what it owned last. `gave` is when it gave
    points, up to the next line that says what it owns.
    """

    __slots__ = ("who", "life", "stretch", "had", "fence", "seen", "partitions", "gave")

    def __init__(self, who, when):
        self.who = who
        self.life = Life(when, who)
        self.stretch = None
        self.had = ()
        self.fence = None
        self.seen = None
        self.gave = None
        self.partitions = set()

    def owned(self) -> Ranges:
        return self.stretch.ranges if self.stretch else ()


class History:
    """What one section said, on its own clock."""

    def __init__(self, section):
        self.section = section
        self.instances = {}
        self.lives = []
        self.stretches = []
        self.flights = {}
        self.given = {}
        self.marks = []
        self.partitions = {}
        self.steps = []
        self.step_of = None
        self.first = None
        self.last = 0
        self.is_filtered = False
        self.renewals = 0

    def spans(self):
        parts = [it for partition in self.partitions.values() for it in partition.spans()]
        return [*self.lives, *self.stretches, *self.flights.values(), *self.marks, *parts]

    def move(self, ticks):
        """Puts all of it on another clock."""
        for it in self.spans():
            it.move(ticks)
        self.steps = [(time + ticks, line) for time, line in self.steps]
        if self.first is not None:
            self.first += ticks
            self.last += ticks

    def take(self, time, line):
        """A line of the report, at its time on the section's clock."""
        if self.first is None:
            self.first = time
        self.last = time
        is_node = line.reading is not None
        it = self.instances.get(line.who) if is_node else None
        if it and it.life.ends:
            it = None  # it goes on though it had stopped: no run does that, and it is drawn as it is said
        if it and it.fence is not None and line.reading >= it.fence:
            self.lapse(it, time, line)
        if line.word != "sent":
            when = self.step(time, line)
            if is_node and it is None:
                it = self.begin(line.who, when)
            self.tell(it, when, line)
        if it:
            it.seen = (time, line.reading)
            it.life.heard = (time, max(len(self.steps) - 1, 0))

    def step(self, time, line):
        """The moment of a line. What an instance reports of one event is one step."""
        if self.step_of != (line.turn, line.who):
            self.step_of = (line.turn, line.who)
            self.steps.append((time, line.turn))
        return time, len(self.steps) - 1

    def begin(self, who, when):
        it = Instance(who, when)
        self.instances[who] = it
        self.lives.append(it.life)
        return it

    def lapse(self, it, time, line):
        """Its clock has reached its fence since its last line. It must have left: if it goes on, lines are missing."""
        before, reading = it.seen
        if it.stretch and it.stretch.lapse is None:
            it.stretch.lapse = before + (it.fence - reading) * (time - before) / max(1, line.reading - reading)
        if line.word not in ("left", "stopped") and it.life.left is None:
            self.is_filtered = True
        it.fence = None

    def tell(self, it, when, line):
        word = line.word
        if word == "own":
            self.own(it, when, *line.fields)
        elif word in ABOUT_PARTITIONS:
            number = line.fields[0]
            if number not in self.partitions:
                self.partitions[number] = Partition(number)
            self.partitions[number].take(when, line)
            it.partitions.add(number)
        elif word in TELLERS:
            TELLERS[word](self, it, when, line)

    def own(self, it, when, ranges, fence):
        if it.gave is not None and self.section.is_dated:
            when = it.gave  # in a log, what was given is not owned from that line on, and the line `own` comes later
        it.gave = None
        if ranges == it.owned() and fence != it.fence:
            self.renewals += 1
        if ranges != it.owned():
            self.end_stretch(it, when)
            if ranges:
                it.stretch = Stretch(when, it.who, ranges)
                self.stretches.append(it.stretch)
        it.fence = fence
        if it.stretch:
            it.stretch.fence = fence

    def end_stretch(self, it, when):
        if it.stretch:
            it.stretch.ends = when
            it.had = it.stretch.ranges
            it.stretch = None

    def mark(self, when, line, who, text, place=()):
        self.marks.append(Mark(when, line.word, who, text, line.turn, place))

    def last_owned(self, who) -> Ranges:
        """What an instance owns, or owned before it stopped."""
        it = self.instances.get(who)
        return (it.owned() or it.had) if it else ()

    def accused(self, it, when, line):
        victim = line.fields[0]
        self.mark(when, line, victim, f"{victim} accused by {line.who}", self.last_owned(victim))

    def discharged(self, it, when, line):
        self.mark(when, line, line.who, f"{line.who} discharged of {line.fields[0]}", it.owned())

    def heir(self, it, when, line):
        victim, ripe = line.fields
        text = f"{line.who} heir of {victim}, ripe at reading {ripe:,}"
        self.mark(when, line, line.who, text, self.last_owned(victim))

    def tookover(self, it, when, line):
        victim, ranges = line.fields
        self.mark(when, line, line.who, f"{line.who} took over from {victim}", ranges)
        for flight in self.given.pop((line.who, victim), ()):
            flight.land(when, "tookover")

    def gave(self, it, when, line):
        receiver, number, ranges = line.fields
        flight = self.flight(line.who, number, receiver, ranges)
        flight.begins = it.gave = when
        self.given.setdefault((line.who, receiver), []).append(flight)

    def took(self, it, when, line):
        giver, number, ranges = line.fields
        self.flight(giver, number, line.who, ranges).land(when, "took")

    def returned(self, it, when, line):
        receiver, number, ranges = line.fields
        self.flight(line.who, number, receiver, ranges).land(when, "returned")
        self.mark(when, line, line.who, f"flight {number} to {receiver} returned to {line.who}", ranges)

    def flight(self, giver, number, receiver, ranges):
        if (giver, number) not in self.flights:
            self.flights[giver, number] = Flight(giver, number, receiver, ranges)
        return self.flights[giver, number]

    def left(self, it, when, line):
        self.mark(when, line, line.who, f"{line.who} left: {line.fields[0]}", it.owned())
        it.life.left = when
        self.end_roles(it, when)

    def end_roles(self, it, when):
        self.end_stretch(it, when)
        for number in it.partitions:
            self.partitions[number].end_instance(it.who, when)

    def stopped(self, it, when, line):
        self.mark(when, line, line.who, f"{line.who} stopped", it.owned() if it else ())
        if it:
            self.end(it, when, "stopped")

    def end(self, it, when, how):
        """A process ended, by its own line or with its report. Its clock went on evenly since its last line."""
        if it.fence is not None and it.stretch and it.stretch.lapse is None:
            fence = it.seen[0] + it.fence - it.seen[1]
            if fence < when[0]:
                it.stretch.lapse = fence
        self.end_roles(it, when)
        it.fence = None
        it.life.ends, it.life.how = when, how

    def end_by_order(self, time):
        """The process said that it ended."""
        self.last = time
        self.steps.append((time, self.steps[-1][1]))
        when = (time, len(self.steps) - 1)
        for it in self.instances.values():
            if it.life.ends is None:
                it.seen = (time, it.seen[1] + time - it.seen[0]) if it.seen else None
                it.life.heard = when
                self.marks.append(Mark(when, "stopped", it.who, f"{it.who} ended by order", self.steps[-1][1]))
                self.end(it, when, "stopped")

    def close(self):
        """Behind the last line: what is still open ends there."""
        if self.section.ended is not None and self.steps:
            self.end_by_order(self.section.ended)
        when = (self.last, AFTER_ALL)
        for it in self.instances.values():
            if it.life.ends is None:
                self.end(it, when, "end")
        for partition in self.partitions.values():
            partition.close(when)


TELLERS = {
    word: getattr(History, word)
    for word in ("accused", "discharged", "heir", "tookover", "gave", "took", "returned", "left", "stopped")
}
