"""The network of a cluster: each actor's address is a socket here, and what comes is lost, delayed, repeated, held
for minutes or spoilt by rules before it goes on to where the actor listens. It is a process of its own, so that
nothing else delays it.

Each frame is looked at when it is sent: it must rest on the records that its sender has in its file at that moment.
"""
import heapq
import multiprocessing
import os
import random
import select
import signal
import socket
import time

from chaos_records import ARBITRATORS, Bad, Records, rests

SEAL = 34  # bytes before a frame that is sealed
OLD = 4_000  # frames that may come again
RESTING = (17, 19, 33, 36, 39, 49, 53, 56, 57)  # kinds that rest on more records than a boot


class Rule:
    """What is done to frames from some actors to some others, of some kinds: lost, or held for so many seconds."""

    def __init__(self, senders=None, receivers=None, kinds=None, share=1.0, hold=None):
        self.senders, self.receivers, self.kinds, self.share, self.hold = senders, receivers, kinds, share, hold

    def fits(self, sender, receiver, kind):
        asked = (self.senders, sender), (self.receivers, receiver), (self.kinds, kind)
        return all(wanted is None or it in wanted for wanted, it in asked)


class Weather:
    """What happens to all frames: a share is lost, repeated, spoilt or sent anew; and the longest delay in seconds."""

    def __init__(self, loss=0.0, repeat=0.0, junk=0.0, again=0.0, delay=0.003):
        self.loss, self.repeat, self.junk, self.again, self.delay = loss, repeat, junk, again, delay


class Network:
    def __init__(self, places, records, is_sealed, seed):
        """For each actor `places` has the port that is its address, and where it listens; `records` its file."""
        self.draws, self.head = random.Random(seed), SEAL if is_sealed else 0
        self.listens = {actor: ("127.0.0.1", port) for actor, (_, port) in places.items()}
        self.records = {actor: Records(path, actor) for actor, path in records.items()}
        self.sockets, self.out = {}, socket.socket(socket.AF_INET, socket.SOCK_DGRAM)
        for actor, (port, _) in places.items():
            it = socket.socket(socket.AF_INET, socket.SOCK_DGRAM)
            it.setsockopt(socket.SOL_SOCKET, socket.SO_RCVBUF, 1 << 20)
            it.setblocking(False)
            it.bind(("127.0.0.1", port))
            self.sockets[it.fileno()] = it, actor
        self.weather, self.rules, self.due, self.old, self.number = Weather(), {}, [], [], 0
        self.known, self.breaches, self.counts = set(), [], dict.fromkeys(
            ("frames", "lost", "held", "repeated", "spoilt", "again", "rested"), 0)

    def send(self, receiver, frame, delay):
        self.number += 1
        heapq.heappush(self.due, (time.monotonic() + delay, self.number, receiver, frame))

    def rest_on_records(self, sender, kind, bare):
        """Each frame of these kinds once, but for its repeats; of the others one of two hundred."""
        if kind in RESTING:
            if bare in self.known:
                return
        elif self.number % 200:
            return
        records = self.records[sender]
        try:
            good = rests(bare, records)
            if not good:
                records.read_on()
                good = rests(bare, records)
        except Bad as bad:
            self.breaches.append(f"records: {bad}")
            records.forget()
            return
        self.counts["rested"] += 1
        if good:
            self.known.add(bare)
        else:
            self.breaches.append(f"the frame {bare.hex()} of actor {sender} does not rest on its records")
        if len(self.known) > 200_000:
            self.known.clear()

    def take(self, receiver, frame):
        self.counts["frames"] += 1
        bare = frame[self.head:]
        kind, sender = bare[2] if len(bare) > 2 else 0, int.from_bytes(bare[3:5], "big")
        if sender in self.records:
            self.rest_on_records(sender, kind, bare)
        for rule in self.rules.values():
            if rule.fits(sender, receiver, kind) and self.draws.random() < rule.share:
                if rule.hold is None:
                    self.counts["lost"] += 1
                else:
                    self.counts["held"] += 1
                    self.send(receiver, frame, self.draws.uniform(*rule.hold))
                return
        self.pass_on(receiver, frame)

    def pass_on(self, receiver, frame):
        weather, draw = self.weather, self.draws.random
        if draw() < weather.loss:
            self.counts["lost"] += 1
            return
        self.send(receiver, frame, draw() * weather.delay)
        if draw() < weather.repeat:
            self.counts["repeated"] += 1
            self.send(receiver, frame, draw() * 20 * weather.delay)
        if draw() < weather.junk:
            self.counts["spoilt"] += 1
            self.send(self.draws.choice(list(self.listens)), self.spoilt(frame), 0)
        if self.number % 7 == 0:
            place = self.draws.randrange(OLD)
            if place < len(self.old):
                self.old[place] = receiver, frame
            else:
                self.old.append((receiver, frame))
        if self.old and draw() < weather.again:
            self.counts["again"] += 1
            self.send(*self.draws.choice(self.old), 0)

    def spoilt(self, frame):
        """The frame with some bytes changed, cut or longer; or any bytes."""
        draws, changed = self.draws, bytearray(frame)
        if draws.random() < 0.2:
            return draws.randbytes(draws.randrange(1500))
        for _ in range(draws.randint(1, 4)):
            at = draws.randrange(len(changed)) if changed else 0
            if changed and draws.random() < 0.7:
                changed[at] = draws.choice((0, 1, 0x7F, 0x80, 0xFF, draws.randrange(256)))
            elif draws.random() < 0.5:
                del changed[at:]
            else:
                changed += draws.randbytes(draws.randrange(40))
        # A changed frame that is one again would be forged: who can forge may break a ring that is not sealed.
        return bytes(changed) if self.head else b"\x00" + bytes(changed)

    def deliver(self):
        now = time.monotonic()
        while self.due and self.due[0][0] <= now:
            _, _, receiver, frame = heapq.heappop(self.due)
            try:
                self.out.sendto(frame, self.listens[receiver])
            except OSError:
                self.counts["lost"] += 1

    def serve(self, orders):
        waits = select.poll()
        for number in [*self.sockets, orders.fileno()]:
            waits.register(number, select.POLLIN)
        while True:
            first = self.due[0][0] - time.monotonic() if self.due else 0.1
            for number, _ in waits.poll(max(0, min(100, int(1000 * first) + 1)) if first > 0 else 0):
                if number == orders.fileno():
                    if not self.obey(orders):
                        return
                else:
                    self.drain(*self.sockets[number])
            self.deliver()

    def drain(self, it, actor):
        try:
            for _ in range(64):
                self.take(actor, it.recv(2_000))
        except BlockingIOError:
            pass

    def obey(self, orders):
        """An order: a rule by its name, the weather, a question for the counts and breaches, or the end."""
        try:
            word, *rest = orders.recv()
        except EOFError:
            return False
        if word == "rule":
            self.rules[rest[0]] = rest[1]
        elif word == "lift":
            self.rules.pop(rest[0], None)
        elif word == "weather":
            self.weather = rest[0]
        elif word == "tell":
            for records in self.records.values():
                try:
                    records.read_on()
                except Bad as bad:
                    self.breaches.append(f"records: {bad}")
                    records.forget()
            orders.send((dict(self.counts), self.breaches))
            self.breaches = []
        return word != "end"


def run(orders, arguments):
    signal.signal(signal.SIGINT, signal.SIG_IGN)
    Network(*arguments).serve(orders)
    os._exit(0)


class Handle:
    """The network as the script has it."""

    def __init__(self, places, records, is_sealed, seed):
        self.orders, other = multiprocessing.Pipe()
        given = other, (places, records, is_sealed, seed)
        self.process = multiprocessing.Process(target=run, args=given, daemon=True)
        self.process.start()
        other.close()

    def rule(self, name, rule):
        self.orders.send(("rule", name, rule))

    def lift(self, name):
        self.orders.send(("lift", name))

    def set_weather(self, weather):
        self.orders.send(("weather", weather))

    def tell(self):
        self.orders.send(("tell",))
        return self.orders.recv()

    def end(self):
        try:
            self.orders.send(("end",))
        except OSError:
            pass
        self.process.join(5)
        self.process.kill()
