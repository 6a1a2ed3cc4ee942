"""Tickets of the keys whose points the node holds: each is greater than all that were given of its key before.

They are in memory alone. Who gains a part of the ring asks the other services for its tickets. Who has lost it hands
them over for as long as the other one waits, and then forgets them. So what is handed over is never older than what
somebody has given meanwhile. If nobody has them, a new series begins, by the time of day: machines must agree on it.
"""
import time

from ring import has, now, point_of, read_ranges, shown

PATIENCE = 0.3  # seconds: how long one waits for tickets, and how long one keeps them for others


class Fetch:
    """Another service was asked for its tickets of a part of the ring. Until it answers, none of them is given here."""

    def __init__(self, ranges):
        self.ranges, self.until, self.is_void = ranges, now() + PATIENCE, False

    def is_about(self, point):
        return now() < self.until and has(self.ranges, point)


class Tickets:
    def __init__(self, service, tries):
        self.service, self.tries = service, tries
        self.until = {}  # key: the reading until which it may be served
        self.last = {}  # key: its last ticket, a series and the number in it
        self.given_up = {}  # key: its last ticket, and until when another service may take it
        self.fetches = []

    # ---- What the node says. ----

    def gained(self, ranges):
        self.last.update(self.taken(ranges))
        for address in self.service.others:
            self.fetch(address, ranges)

    def losing(self, ranges):
        """Once this has returned, nothing that was asked before is answered from a span that was given up."""
        if "early" in self.tries:
            return
        self.until = {key: until for key, until in self.until.items() if not has(ranges, point_of(key))}
        for key in [key for key in self.last if has(ranges, point_of(key))]:
            self.given_up[key] = self.last.pop(key), now() + PATIENCE
        for fetch in self.fetches:
            fetch.is_void = True

    def lost(self):
        self.until.clear()
        self.last.clear()
        for fetch in self.fetches:
            fetch.is_void = True

    # ---- What clients ask. ----

    def next(self, key):
        reading = now()
        if reading >= self.until.get(key, 0.0):
            # The span counts from here, before the question. Whatever passes until the answer makes it shorter.
            self.until[key] = self.span_from(reading, point_of(key))
            reading = now()
        if reading >= self.until.get(key, 0.0) or any(it.is_about(point_of(key)) for it in self.fetches):
            return "elsewhere"
        series, number = self.last.get(key) or (time.time_ns() // 1000, 0)
        self.last[key] = series, number + 1
        self.service.log("ticket", key, reading=reading)
        return "ticket %d %d" % (series, number + 1)

    def span_from(self, reading, point):
        if "late" in self.tries:
            words = self.service.node.ask("hold %016x" % point).lines[0].split()
            return now() + int(words[2]) / 1000 if words[0] == "held" else 0.0
        return reading + self.service.node.holds(point)

    # ---- What other services ask. ----

    def take(self, text):
        """The tickets of a part of the ring that was given up. They move: who takes them over goes on with them."""
        tickets = self.taken(read_ranges(text))
        return "".join("%s %d %d\n" % (key, *ticket) for key, ticket in tickets.items()) + "end"

    def taken(self, ranges):
        moved = {key: self.given_up.pop(key) for key in list(self.given_up) if has(ranges, point_of(key))}
        return {key: ticket for key, (ticket, until) in moved.items() if now() < until}

    def fetch(self, address, ranges):
        fetch = Fetch(ranges)
        self.fetches = [it for it in self.fetches if now() < it.until] + [fetch]

        def heard(connection, line):
            if line == "end":
                fetch.until = 0.0
                connection.close()
            elif line is not None and now() < fetch.until and not fetch.is_void:
                key, series, number = line.split()
                self.last[key] = int(series), int(number)

        self.service.lines.ask(address, "take " + shown(ranges), heard)
