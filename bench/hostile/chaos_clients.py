"""Clients of a chaotic cluster: one writes to each partition, and one looks whether each primary has what was
committed before."""
import threading
import time

from chaos_actors import LEASE, PARTITIONS, Asked, Client
from serving import committed


class Book:
    """What was acknowledged: by partition, the number of an entry, its epoch and its text."""

    def __init__(self):
        self.lock, self.kept = threading.Lock(), {p: {} for p in PARTITIONS}
        self.tried, self.last, self.breaches = 0, dict.fromkeys(PARTITIONS, time.monotonic()), []

    def note(self, partition, place, text):
        epoch, lsn = tuple(int(it) for it in place[0].split(".")), int(place[1])
        with self.lock:
            found = self.kept[partition].setdefault(lsn, (epoch, text))
            self.last[partition] = time.monotonic()
            if found != (epoch, text):
                self.breaches.append(f"entry {lsn} of {partition} was acknowledged as {found} and as {(epoch, text)}")

    def before(self, partition, epoch):
        """What was acknowledged up to now in epochs up to this one."""
        with self.lock:
            return {lsn: text for lsn, (at, text) in self.kept[partition].items() if at <= epoch}

    def count(self):
        with self.lock:
            return sum(map(len, self.kept.values()))


class Writer(threading.Thread):
    """Writes to a partition, one entry after another."""

    def __init__(self, cluster, partition, book, pause):
        super().__init__(daemon=True)
        self.client, self.partition, self.book, self.pause = Client(cluster), partition, book, pause
        self.stopped = threading.Event()

    def run(self):
        node, count = None, 0
        while not self.stopped.is_set():
            node = node or self.client.primary(self.partition)
            if node is None:
                time.sleep(0.1)
                continue
            count += 1
            self.book.tried += 1
            text = f"entry {count} of {self.partition}"
            try:
                done = committed(node.ask(f"write {self.partition} {text}"), self.partition)
            except Asked:
                done = None
            if done:
                self.book.note(self.partition, done, text)
            else:
                node = None
            time.sleep(self.pause)


class Reader(threading.Thread):
    """Looks at each primary that is new: its log must have all that was acknowledged in epochs up to its own."""

    def __init__(self, cluster, book):
        super().__init__(daemon=True)
        self.client, self.book, self.stopped = Client(cluster, 3 * LEASE / 1000), book, threading.Event()
        self.seen, self.looks = {}, 0

    def run(self):
        while not self.stopped.is_set():
            self.look(1.0)
            time.sleep(0.5)

    def look(self, pause):
        """Each primary that was not seen in its epoch yet, or not for so many seconds times thirty."""
        for number, state in self.client.states().items():
            for partition, (epoch, role, _) in state.replicas.items():
                key = number, state.who, partition, epoch
                if role == "primary" and time.monotonic() > self.seen.get(key, 0) + 30 * pause:
                    try:
                        self.check(self.client.nodes[number - 1], partition, epoch)
                        self.seen[key] = time.monotonic()
                    except Asked:
                        pass

    def check(self, node, partition, epoch):
        wanted = self.book.before(partition, epoch)
        if not wanted:
            return
        found = {}
        for first in range(1, max(wanted) + 1, 64):
            for line in node.ask(f"log {partition} {first} 64"):
                words = line.split(" ")
                if words[0] == "entry":
                    found[int(words[3])] = bytes.fromhex(words[4]).decode()
        state = node.state()
        if state is None or state.replicas.get(partition, (None, ""))[:2] != (epoch, "primary"):
            return
        self.looks += 1
        lost = {lsn: text for lsn, text in wanted.items() if found.get(lsn) != text}
        if lost:
            lsn = min(lost)
            self.book.breaches.append(
                f"the primary {state.who} of {partition} in {epoch} lacks {len(lost)} acknowledged entries, "
                f"the first {lsn} {lost[lsn]!r}; it has {found.get(lsn)!r}")
