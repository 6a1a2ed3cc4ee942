"""The records of actors, read again from their files by the grammar of docs/formats.md, and the frames that must rest
on them."""
import os
import struct

ARBITRATORS = 32_768
EPOCH, WHO = struct.Struct(">II"), struct.Struct(">HI")


class Bad(Exception):
    """A record that is none of the grammar, or not in its place."""


class Reading:
    """Reads the fields of a record or a frame, one behind the other."""

    def __init__(self, data, at=0):
        self.data, self.at = data, at

    def number(self, size):
        field = self.data[self.at:self.at + size]
        if len(field) < size:
            raise Bad("it is too short")
        self.at += size
        return int.from_bytes(field, "big")

    def who(self):
        return self.number(2), self.number(4)

    def epoch(self):
        return self.number(4), self.number(4)

    def config(self):
        partition, epoch, primary, count = self.number(2), self.epoch(), self.number(2), self.number(1)
        members = tuple(self.number(2) for _ in range(count))
        if not 1 <= count <= 7 or list(members) != sorted(set(members)) or primary not in members:
            raise Bad("it has a bad configuration")
        return partition, epoch, primary, members

    def text(self):
        size = self.number(2)
        found = self.data[self.at:self.at + size]
        if size > 512 or len(found) < size:
            raise Bad("its text is too long or cut")
        self.at += size
        return found

    def end(self):
        if self.at != len(self.data):
            raise Bad("it has more bytes")


class Log:
    """The log of a replica, as its records make it."""

    def __init__(self):
        self.promised, self.epoch, self.last, self.collected = (0, 0), (0, 0), 0, 0
        self.reached = {}  # by epoch the greatest number that the log had in it

    def wrote(self, epoch, lsn):
        if epoch != self.epoch or epoch < self.promised or lsn != self.last + 1:
            raise Bad(f"an entry {lsn} of {epoch} behind {self.last} of {self.epoch}, promised {self.promised}")
        self.last = lsn
        self.reached[epoch] = lsn

    def promise(self, epoch):
        if epoch <= self.promised:
            raise Bad(f"a promise of {epoch} behind one of {self.promised}")
        self.promised, self.collected = epoch, 0

    def incoming(self, epoch, lsn):
        if epoch != self.promised or epoch == self.epoch or lsn not in (1, self.collected + 1):
            raise Bad(f"entry {lsn} is collected for {epoch} behind {self.collected}, promised {self.promised}")
        self.collected = lsn

    def adopt(self, epoch, last, is_own):
        fits = last == self.last > 0 if is_own else last in (self.collected, 0)
        if epoch != self.promised or epoch == self.epoch or not fits:
            raise Bad(f"{epoch} is adopted at {last}, own {is_own}, of {self.last} and {self.collected}")
        self.epoch, self.last, self.collected = epoch, last, 0
        self.reached[epoch] = last


class Records:
    """What a file of records says, read on from where it was read to. A part of a record at its end is left out."""

    def __init__(self, path, actor):
        self.path, self.actor = path, actor
        self.forget()

    def forget(self):
        self.at, self.count, self.boots = 0, 0, 0
        self.accused, self.claimed, self.prepared, self.voted, self.done = {}, {}, {}, {}, {}
        self.logs = {}

    def read_on(self):
        try:
            with open(self.path, "rb") as file:
                file.seek(0, os.SEEK_END)
                if file.tell() < self.at:
                    raise Bad(f"{self.path} was cut below {self.at} bytes that had been read")
                file.seek(self.at)
                rest = file.read()
        except FileNotFoundError:
            return
        place = 0
        while place + 2 <= len(rest):
            size = int.from_bytes(rest[place:place + 2], "big")
            record = rest[place + 2:place + 2 + size]
            if len(record) < size:
                break
            self.count += 1
            try:
                self.take(Reading(record, 1), record[:1])
            except Bad as bad:
                raise Bad(f"record {self.count} of {self.path}, {record.hex()}: {bad}") from bad
            place += 2 + size
        self.at += place

    def take(self, it, kind):
        is_arbiter = self.actor > ARBITRATORS
        if kind in (b"\x02", b"\x03", b"\x04", b"\x05", b"\x0a") and not is_arbiter:
            raise Bad("a node has a record of an arbitrator")
        if kind in (b"\x01", b"\x06", b"\x07", b"\x08", b"\x09") and is_arbiter:
            raise Bad("an arbitrator has a record of a node")
        row = {b"\x01": self.boot, b"\x02": self.accuse, b"\x03": self.prepare, b"\x04": self.vote,
               b"\x05": self.finish, b"\x06": self.promise, b"\x07": self.write, b"\x08": self.collect,
               b"\x09": self.adopt, b"\x0a": self.claim}
        if kind not in row:
            raise Bad("it is of no kind")
        row[kind](it)
        it.end()

    def log(self, partition):
        return self.logs.setdefault(partition, Log())

    def boot(self, it):
        if it.number(4) != self.boots + 1:
            raise Bad(f"it is not boot {self.boots + 1}")
        self.boots += 1
        for log in self.logs.values():
            log.collected = 0

    def accuse(self, it):
        victim, first = it.who(), it.who()
        if victim in self.accused:
            raise Bad("the victim has a record")
        self.accused[victim] = first

    def claim(self, it):
        victim, turn, claimer = it.who(), it.number(1), it.who()
        if victim not in self.accused or (victim, turn) in self.claimed or not 2 <= turn <= 8:
            raise Bad("the round is not there, or has a claimer")
        self.claimed[victim, turn] = claimer

    def prepare(self, it):
        partition, epoch, preparer = it.number(2), it.epoch(), it.who()
        if partition in self.prepared and epoch <= self.prepared[partition][0]:
            raise Bad("its epoch does not rise")
        self.prepared[partition] = epoch, preparer
        self.prepared[partition, epoch] = preparer

    def vote(self, it):
        config = it.config()
        if config[:2] in self.voted:
            raise Bad("it has voted in this epoch")
        self.voted[config[:2]] = config

    def finish(self, it):
        config = it.config()
        if config[0] in self.done and config[1] <= self.done[config[0]][0]:
            raise Bad("its epoch does not rise")
        self.done[config[0]] = config[1], config

    def promise(self, it):
        self.log(it.number(2)).promise(it.epoch())

    def write(self, it):
        partition, epoch, lsn, _ = it.number(2), it.epoch(), it.number(4), it.text()
        self.log(partition).wrote(epoch, lsn)

    def collect(self, it):
        partition, epoch, lsn, _, _ = it.number(2), it.epoch(), it.number(4), it.epoch(), it.text()
        self.log(partition).incoming(epoch, lsn)

    def adopt(self, it):
        partition, epoch, last, own = it.number(2), it.epoch(), it.number(4), it.number(1)
        self.log(partition).adopt(epoch, last, own == 1)


def rests(frame, records):
    """Whether the frame rests on these records of its sender. Kinds that rest on nothing but a boot always do."""
    it = Reading(frame, 2)
    kind, sender, receiver = it.number(1), it.who(), it.who()
    if sender[0] < ARBITRATORS and sender[1] > records.boots:
        return False
    if kind == 17:
        victim, ruling = it.who(), it.number(1)
        first = records.accused.get(victim)
        return ruling == 3 or (first is not None and (ruling != 1 or first == receiver))
    if kind == 19:
        victim, turn, claimer = it.who(), it.number(1), it.who()
        kept = records.accused.get(victim) if turn == 1 else records.claimed.get((victim, turn))
        return kept == claimer
    if kind == 33:
        partition, epoch = it.number(2), it.epoch()
        return (partition, epoch) in records.prepared
    if kind == 36:
        partition, epoch = it.number(2), it.epoch()
        return records.voted.get((partition, epoch)) == it.config()
    if kind == 39:
        partition, epoch = it.number(2), it.epoch()
        return records.done.get(partition, ((0, 0), None))[0] >= epoch
    if kind == 49:
        partition, epoch = it.number(2), it.epoch()
        return records.log(partition).promised >= epoch
    if kind in (53, 56, 57):
        partition, epoch, last = it.number(2), it.epoch(), it.number(4)
        return records.log(partition).reached.get(epoch, -1) >= last
    return True
