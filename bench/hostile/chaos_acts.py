"""What is done to a chaotic cluster: acts by a seed. Each begins at once, and is over at a time of its own."""
import heapq
import time

from chaos_actors import BOUND, RING
from chaos_network import Rule, Weather

LEASE = RING["lease"] / 1000
COUNTED = ("killed", "killed at a sync", "cuts", "paused", "syncs failed", "disks filled", "ends torn", "isolated",
           "halves", "one way", "kinds lost", "held", "weathers")
KINDS = (1, 2, 3, 4, 5, 6, 7, 8, 9, 16, 17, 18, 19, 32, 33, 35, 36, 38, 39, 48, 49, 50, 51, 52, 53, 54, 55, 56, 57, 58)


class Acts:
    def __init__(self, cluster, network, draws, note):
        self.cluster, self.network, self.draws, self.note = cluster, network, draws, note
        self.later, self.number, self.victims = [], 0, cluster.all()
        self.counts = dict.fromkeys(COUNTED, 0)
        self.choices = [(46, self.kill), (12, self.kill_at_sync), (4, self.fail_sync), (8, self.pause),
                        (6, self.isolate), (3, self.halve), (5, self.one_way), (5, self.lose_kind), (3, self.hold),
                        (4, self.change_weather), (3, self.fill_disk), (1, self.kill_many)]

    def at(self, seconds, what):
        self.number += 1
        heapq.heappush(self.later, (time.monotonic() + seconds, self.number, what))

    def pass_time(self):
        """Does what is due by now."""
        while self.later and self.later[0][0] <= time.monotonic():
            heapq.heappop(self.later)[2]()

    def one(self):
        """The next act."""
        self.draws.choices([it for _, it in self.choices], [weight for weight, _ in self.choices])[0]()

    def choose_victims(self):
        """To whom the next storm comes: to all, or to a minority of the nodes and some arbitrators."""
        self.victims = self.cluster.all()
        if self.draws.random() < 0.7:
            self.victims = self.draws.sample(self.cluster.nodes, self.draws.randint(1, 2))
            self.victims += self.draws.sample(self.cluster.arbiters, self.draws.randint(1, 3))

    def some(self):
        return self.draws.choice(self.victims)

    def begin(self, it, is_calm=False):
        """Starts an actor, unless it runs. Its clock runs at the bounds of the drift, or between them."""
        if it.is_running():
            return
        if it.kind == "node":
            it.rate = self.draws.choice((BOUND, -BOUND, 0, self.draws.randint(-BOUND, BOUND)))
        if it.sync_fault is None and not is_calm and self.draws.random() < 0.1:
            it.sync_fault = self.draws.randint(1, 30), "signal=SIGKILL"
        it.start()

    def kill(self, it=None, away=None):
        it = it or self.some()
        if it.kill():
            self.counts["killed"] += 1
        self.note(f"kill {it.name}")
        if self.draws.random() < 0.3 and it.tear(self.draws):
            self.counts["ends torn"] += 1
        away = self.draws.choice((0, self.draws.random(), 2.5 * LEASE * self.draws.random())) if away is None else away
        self.at(away, lambda: self.begin(it))

    def kill_many(self):
        for it in self.draws.sample(self.victims, min(len(self.victims), self.draws.randint(2, 5))):
            self.kill(it)

    def kill_at_sync(self):
        """The next process of an actor is killed at a sync: between two records of a step, or behind the last one."""
        it = self.some()
        it.sync_fault = self.draws.choice((1, 2, 3, 4, 5, 6, 8, 10, 15, 20, 40)), "signal=SIGKILL"
        self.kill(it, 0)

    def fail_sync(self):
        it = self.some()
        it.sync_fault = self.draws.randint(1, 12), "error=EIO"
        self.counts["syncs failed"] += 1
        self.kill(it, 0)

    def pause(self):
        it = self.some()
        it.pause()
        self.counts["paused"] += 1
        self.note(f"pause {it.name}")
        self.at(self.draws.choice((0.3, 1.2, 1.5, 2.5, 4)) * LEASE, it.go_on)

    def rule(self, what, rules, seconds):
        self.counts[what] += 1
        names = []
        for rule in rules:
            self.number += 1
            names.append(self.number)
            self.network.rule(self.number, rule)
        self.note(f"{what} {[vars(it) for it in rules]} for {seconds:.1f} s")
        self.at(seconds, lambda: [self.network.lift(it) for it in names])

    def apart(self, part):
        """Nothing goes between these actors and the others."""
        others = {it.actor for it in self.cluster.all()} - part
        return [Rule(part, others), Rule(others, part)]

    def seconds(self):
        return LEASE * self.draws.uniform(0.3, 6)

    def isolate(self):
        """A minority of the nodes and one arbitrator at most."""
        part = {it.actor for it in self.draws.sample(self.cluster.nodes, self.draws.randint(0, 2))}
        part |= {it.actor for it in self.draws.sample(self.cluster.arbiters, self.draws.randint(0 if part else 1, 1))}
        self.rule("isolated", self.apart(part), self.seconds())

    def halve(self):
        """Two or three nodes with one or two arbitrators."""
        part = {it.actor for it in self.draws.sample(self.cluster.nodes, self.draws.randint(2, 3))}
        part |= {it.actor for it in self.draws.sample(self.cluster.arbiters, self.draws.randint(1, 2))}
        self.rule("halves", self.apart(part), self.seconds())

    def one_way(self):
        senders, receivers = {self.some().actor}, {self.some().actor}
        whole = {it.actor for it in self.cluster.all()}
        rule = self.draws.choice((Rule(senders, receivers), Rule(senders, whole), Rule(whole, receivers)))
        self.rule("one way", [rule], self.seconds())

    def lose_kind(self):
        kinds = set(self.draws.sample(KINDS, self.draws.choice((1, 1, 2, 4))))
        self.rule("kinds lost", [Rule(kinds=kinds, share=self.draws.choice((0.5, 0.9, 1)))], self.seconds())

    def hold(self):
        """Frames of some kinds come seconds or minutes later, when their actors are others."""
        kinds = set(self.draws.sample(KINDS, self.draws.choice((1, 3, 10))))
        span = self.draws.choice(((0.5, 3), (5, 20), (60, 180)))
        self.rule("held", [Rule(kinds=kinds, share=self.draws.choice((0.2, 0.6)), hold=span)], self.seconds())

    def change_weather(self):
        draws = self.draws
        self.network.set_weather(Weather(
            loss=draws.choice((0, 0.02, 0.1, 0.3)), repeat=draws.choice((0, 0.05, 0.5)),
            junk=draws.choice((0, 0.05, 0.5)), again=draws.choice((0, 0.05, 0.5)),
            delay=draws.choice((0.003, 0.02, 0.1, 0.5))))
        self.counts["weathers"] += 1
        self.at(self.seconds(), lambda: self.network.set_weather(Weather()))

    def fill_disk(self):
        it = self.some()
        if self.cluster.has_disks:
            it.fill_disk()
            self.counts["disks filled"] += 1
            self.note(f"fill {it.name}")
            self.at(LEASE * self.draws.uniform(0.5, 4), it.free_disk)

    def calm(self):
        """All that was done is over: what was to be lifted or started later is, at once."""
        while self.later:
            heapq.heappop(self.later)[2]()
        self.network.set_weather(Weather())
        for it in self.cluster.all():
            it.free_disk()
            it.go_on()
            it.sync_fault = None
            self.begin(it, True)

    def cut(self):
        """All are killed at once. Gives when, in milliseconds of the time of day."""
        for it in self.cluster.all():
            if it.kill():
                self.counts["killed"] += 1
        self.counts["cuts"] += 1
        self.later.clear()
        self.note("cut")
        return time.time() * 1000
