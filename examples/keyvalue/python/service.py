"""A service beside its node: it gives tickets of the keys that it holds, and keeps the values of those that it leads.

usage: service.py N ADDRESSES PARTITIONS [--try WORDS] -- FABRICD node N FILE --parent ..

N is its place among ADDRESSES, HOST:PORT,HOST:PORT.., which are those of all services. PARTITIONS is FIRST-LAST. The
README above this folder says what a client may write, and what the words of --try are for. c/service.c does the same.
"""
import os
import sys
import time

HERE = os.path.dirname(os.path.realpath(__file__))
sys.path.insert(0, os.path.join(HERE, "..", "..", "..", "clients", "python"))

from fabric_node import FabricError, Node  # noqa: E402
from lines import Lines  # noqa: E402
from ring import now, shown  # noqa: E402
from tickets import Tickets  # noqa: E402
from values import Values  # noqa: E402

NOT_DONE = ("refused", "busy", "nosuch", "line", "large", "ended")  # errors after which nothing has happened


class Service:
    """One thread does all. So while a handler runs, no answer is under way that rests on a span."""

    def __init__(self, number, addresses, partitions, tries):
        self.number, self.tries, self.node = number, tries, None
        self.others = addresses[:number - 1] + addresses[number:]
        self.lines = Lines(addresses[number - 1], self.hear)
        self.tickets, self.values = Tickets(self, tries), Values(self, *partitions)

    # ---- What the node says. It waits until a handler has returned: then nothing rests on what is given up. ----

    def gained(self, ranges):
        self.log("gained", shown(ranges))
        self.tickets.gained(ranges)

    def losing(self, ranges):
        self.log("losing", shown(ranges))  # `-` where all was lost before
        self.stop("losing")
        self.tickets.losing(ranges)

    def lost(self):
        self.log("lost")
        self.tickets.lost()
        self.values.lost()

    def primary(self, partition, epoch):
        self.log("primary", partition, epoch)
        self.values.primary(partition)

    def promised(self, partition, epoch):
        self.log("promised", partition, epoch)
        self.stop("promised")
        self.values.promised(partition)

    def committed(self, partition, epoch, lsn):
        self.values.committed(partition, lsn)

    # ---- What clients ask. ----

    def hear(self, connection, line):
        if line is not None:
            connection.say(self.answer(line))

    def answer(self, line):
        word, _, rest = line.partition(" ")
        key, _, text = rest.partition(" ")
        try:
            if word == "take":
                return self.tickets.take(rest)
            if not 1 <= len(key) <= 64 or len(text) > 400:
                return "fault"
            if word == "put" and text:
                return self.values.put(key, text)
            if word == "next" and not text:
                return self.tickets.next(key)
            if word in ("get", "peek") and not text:
                return getattr(self.values, word)(key)
        except FabricError as error:
            return "elsewhere" if error.name in NOT_DONE else "unknown"
        return "fault"

    # ---- Around it. ----

    def log(self, *words, reading=None):
        print("%.6f" % (reading or now()), *words, flush=True)

    def stop(self, handler):
        """For the test: stands still between a line of the child and its `done`, until it is told to go on."""
        if "stop" in self.tries:
            self.log("stopped", handler)
            sys.stdin.readline()

    def start(self, words):
        """Starts the child. That of a former process may not have ended yet, and has the folder then."""
        while self.node is None:
            try:
                self.node = Node(words, self)
            except FabricError as error:
                self.log("start", error)
                time.sleep(0.1)

    def serve(self):
        while True:
            try:
                self.node.poll(0)
            except FabricError as error:
                self.log("fault", error)  # the child has ended, and `lost` was called
            self.lines.wait(0.05, self.node.descriptor())


def main(words):
    own, words = words[:words.index("--")], words[words.index("--") + 1:]
    tries = own[4].split(",") if own[3:4] == ["--try"] else []
    addresses = [(host, int(port)) for host, port in (it.rsplit(":", 1) for it in own[1].split(","))]
    partitions = [int(it) for it in own[2].split("-")]
    service = Service(int(own[0]), addresses, partitions, tries)
    service.start(words)
    service.serve()


if __name__ == "__main__":
    main(sys.argv[1:])
