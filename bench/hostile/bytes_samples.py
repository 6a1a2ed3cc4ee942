"""Samples for each reader: made by the grammars of docs/formats.md and docs/service.md, or from recorded cases."""
import json
import os
import random

KINDS = {
    1: "s", 2: "ss", 3: "ss", 4: "ssthggfr", 5: "sstg", 6: "sshR", 7: "ssgf", 8: "wpo", 9: "pw", 16: "w", 17: "wU",
    18: "wO", 19: "wOw", 32: "Pe", 33: "Ped", 34: "Pee", 35: "c", 36: "Pek", 37: "Pee", 38: "c", 39: "Pe", 40: "Pee",
    48: "Pe", 49: "Peel", 50: "Penl", 51: "Peg", 52: "PegeT", 53: "Pel", 54: "c", 55: "Pe", 56: "PegT", 57: "Pel",
    58: "Pee"}
EDGES = {1: (0, 1, 64, 255), 2: (0, 1, 999, 1000, 32_769, 65_535), 4: (0, 1, 2, 100_000, 100_001, (1 << 32) - 1),
         8: (0, 1, 10, 1_000_000_000, 10 ** 15, 10 ** 15 + 1, (1 << 64) - 1)}


class Make:
    """Bytes of a grammar, by draws: mostly in their ranges, now and then at an edge."""

    def __init__(self, draws):
        self.draws = draws

    def number(self, size, low, high):
        value = self.draws.choice(EDGES[size]) if self.draws.random() < 0.02 else self.draws.randint(low, high)
        return value.to_bytes(size, "big")

    def who(self, is_sender=False):
        if self.draws.random() < 0.1 and is_sender:
            return (32_768 + self.draws.randint(1, 9)).to_bytes(2, "big") + bytes(4)
        return self.number(2, 1, 5) + self.number(4, 1, 4)

    def epoch(self):
        return self.number(4, 0, 1) + self.number(4, 0, 9)

    def ranges(self, least=0):
        points = sorted(self.draws.sample(range(1, 1 << 16), 2 * self.draws.choice((least, least, 1, 2, 5, 32))))
        pairs = [(points[at] << 48, (points[at + 1] << 48) - 1) for at in range(0, len(points), 2)]
        return bytes([len(pairs)]) + b"".join(lo.to_bytes(8, "big") + hi.to_bytes(8, "big") for lo, hi in pairs)

    def config(self, partition=None, epoch=None):
        members = sorted(self.draws.sample(range(1, 10), self.draws.randint(1, 7)))
        primary = self.draws.choice(members)
        head = (self.number(2, 0, 9) if partition is None else partition) + (self.epoch() if epoch is None else epoch)
        listed = b"".join(it.to_bytes(2, "big") for it in members)
        return head + primary.to_bytes(2, "big") + bytes([len(members)]) + listed

    def text(self):
        size = self.draws.choice((0, 1, 5, 40, 511, 512))
        return size.to_bytes(2, "big") + self.draws.randbytes(size)

    def field(self, sign, partition, epoch):
        row = {"s": lambda: self.number(4, 1, 9), "g": lambda: self.number(4, 0, 9), "h": lambda: self.number(4, 1, 9),
               "t": lambda: self.number(8, 0, 10_000), "f": lambda: bytes([self.draws.randint(0, 1)]), "r": self.ranges,
               "R": lambda: self.ranges(1), "w": self.who, "p": lambda: self.draws.randbytes(8),
               "o": lambda: self.number(1, 0, 64), "U": lambda: self.number(1, 1, 3), "O": lambda: self.number(1, 1, 8),
               "P": lambda: partition, "e": lambda: epoch, "c": self.config, "k": lambda: self.config(partition, epoch),
               "l": lambda: self.number(4, 0, 100_000), "n": lambda: self.number(2, 1, 9), "T": self.text,
               "d": lambda: b"\0" if self.draws.random() < 0.5 else b"\1" + self.config(partition, epoch)}
        return row[sign]()

    def frame(self):
        kind = self.draws.choice(list(KINDS))
        version = 2 if kind in (1, 2) and self.draws.random() < 0.3 else 1
        partition, epoch = self.number(2, 0, 9), self.epoch()
        body = b"".join(self.field(it, partition, epoch) for it in KINDS[kind])
        if version == 2:
            body += self.number(8, 10, 5_000)
        return b"\x53" + bytes([version, kind]) + self.who(True) + self.who(True) + body

    def records(self):
        """A list of records of a node or of an arbitrator, most of them in their places."""
        listed = self.node_records() if self.draws.random() < 0.5 else self.arbiter_records()
        return b"".join(len(it).to_bytes(2, "big") + it for it in listed)

    def node_records(self):
        found, boots, at, last, held = [], 0, 0, 0, 0
        for _ in range(self.draws.randint(1, 25)):
            part, choice = (7).to_bytes(2, "big"), self.draws.random()
            now = bytes(4) + at.to_bytes(4, "big")
            if choice < 0.2 or not boots:
                boots += 1
                found.append(b"\1" + boots.to_bytes(4, "big"))
            elif choice < 0.4 or not at:
                at, held = at + self.draws.randint(1, 3), 0
                found.append(b"\6" + part + bytes(4) + at.to_bytes(4, "big"))
                if self.draws.random() < 0.7:
                    own = last > 0 and self.draws.random() < 0.5
                    last = last if own else 0
                    adopted = at.to_bytes(4, "big") + last.to_bytes(4, "big") + bytes([own])
                    found.append(b"\x09" + part + bytes(4) + adopted)
            elif choice < 0.9:
                last += 1
                found.append(b"\7" + part + now + last.to_bytes(4, "big") + self.text())
            else:
                held += 1
                found.append(b"\x08" + part + now + held.to_bytes(4, "big") + self.epoch() + self.text())
        return found

    def arbiter_records(self):
        found, victims, epoch = [], 0, 0
        for _ in range(self.draws.randint(1, 25)):
            choice = self.draws.randrange(5)
            part, victim = (7).to_bytes(2, "big"), b"\0\1" + max(1, victims).to_bytes(4, "big")
            if choice == 0 or not victims:
                victims += 1
                found.append(b"\2\0\1" + victims.to_bytes(4, "big") + self.who())
            elif choice == 1:
                found.append(b"\x0a" + victim + bytes([self.draws.randint(2, 8)]) + self.who())
            else:
                epoch += self.draws.randint(0, 2)
                now = bytes(4) + epoch.to_bytes(4, "big")
                voted = bytes([choice + 1]) + self.config(part, now)
                found.append(b"\3" + part + now + self.who() if choice == 2 else voted)
        return found

    def config_line(self):
        count = self.draws.choice((1, 2, 3, 3, 5, 5, 5, 64))
        leases = 10, 3000, 1_000_000_000
        nodes = [{"node": n, "point": f"{self.draws.getrandbits(64):016x}", "domain": self.draws.randint(1, 64),
                  "at": "127.0.0.1:4600", "longest": self.draws.choice(leases)} for n in range(1, count + 1)]
        voters = [{"arbiter": a, "at": "[::1]:4600"} for a in range(1, self.draws.randint(2, 10))]
        line = {"lease": self.draws.choice(leases), "answer": 1000, "drift": self.draws.choice((0, 10, 100)),
                "grain": 1, "near": self.draws.randint(0, 4), "rounds": self.draws.randint(1, 8), "nodes": nodes,
                "arbiters": voters, "first": 1}
        if self.draws.random() < 0.1:
            line["note"] = ["any", {"field": None}, -1.5e300, "\u20ac\n"]
        between = self.draws.choice(((",", ":"), (", ", " : ")))
        return json.dumps(line, separators=between, ensure_ascii=self.draws.random() < 0.5).encode()

    def service_line(self):
        declared = self.draws.sample(range(9), 3)
        line = {"join": self.draws.sample([1, 2, 7], self.draws.randint(0, 3)),
                "heal_after": self.draws.choice((1, 3000, 10 ** 9)),
                "partitions": [{"partition": p, "replicas": self.draws.randint(1, 7)} for p in declared],
                "lines": self.draws.choice(("some", "all")),
                "again": {"node": 7, "instance": self.draws.choice((2, 9, (1 << 32) - 1))}}
        for name in list(line):
            if self.draws.random() < 0.3:
                del line[name]
        return json.dumps(line, separators=(",", ":")).encode()

    def actor_file(self):
        text = f"fabricd 1 {self.draws.choice(('1', '999', 'a1', 'a9'))} {self.draws.randbytes(32).hex()}\n"
        text += "began\n" if self.draws.random() < 0.7 else ""
        for _ in range(self.draws.randint(0, 3)):
            text += f"again {self.draws.randint(1, 9)}.{self.draws.randint(2, 99)}\n"
        return text.encode() + (b"again 1." if self.draws.random() < 0.3 else b"")

    def head(self):
        words = (("GET", "HEAD", "POST", "get"), ("/metrics", "/state", "/healthz", "/", "*", "/metrics?x=1"),
                 ("HTTP/1.0", "HTTP/1.1", "HTTP/9"))
        line, count = " ".join(self.draws.choice(it) for it in words), self.draws.choice((0, 1, 3, 31, 32, 33))
        fields = "".join(f"X-{at}: {'v' * self.draws.randint(0, 60)}\r\n" for at in range(count))
        return (line + "\r\n" + fields + "\r\n").encode()


def asked_lines(commands):
    """Lines of a door, over commands of schedules."""
    words = ["state", "log 7 1 64", "log 65535 100000 1", "watch", "watch all", "leave", "end", "hold 0000000000000000",
             "lead 7"]
    lines = [f"@{tag} ".encode() + it for tag, it in enumerate(commands)]
    return lines + [f"@4294967295 {it}".encode() for it in words] + [b"done 1", b"done 18446744073709551615"]


def case_files(cases, names, most):
    found = []
    for name in names:
        folder = os.path.join(cases, name)
        for path in sorted(os.listdir(folder)):
            if path.endswith(".in") and os.path.getsize(os.path.join(folder, path)) < most:
                with open(os.path.join(folder, path), "rb") as file:
                    found.append(file.read())
    return found


def all_samples(cases, seed, count=3_000):
    """By reader the samples."""
    draws = random.Random(seed)
    make = Make(draws)
    schedules = case_files(cases, ("clocks", "ring", "rounds", "units", "mixed", "names", "writes"), 60_000)
    transcripts = case_files(cases, ("audit",), 60_000)
    draws.shuffle(schedules)
    draws.shuffle(transcripts)
    lines = sorted({line for it in schedules for line in it.split(b"\n")[1:] if line})
    told = sorted({line for it in transcripts for line in it.split(b"\n") if line and b"clocks" not in line})
    configs = sorted({it.split(b"\n")[0] for it in schedules})
    commands = [line.split(b" ", 2)[2] for line in lines if line.startswith(b"do ")]
    plans = []
    for _ in range(300):
        config = make.config_line()
        turns = sorted(draws.randint(1, 500) for _ in range(draws.choice((0, 1, 3, 30))))
        node = draws.choice((b"", b"1 "))
        text = [b"%d %s%s" % (turn, node, draws.choice(commands)) for turn in turns]
        plans.append(b"\n".join([config, *text]) + b"\n")
    some = lambda listed: draws.sample(listed, min(count, len(listed)))  # noqa: E731
    return {
        "frames": [make.frame() for _ in range(count)], "events": some(lines), "reports": some(told),
        "asked": asked_lines(some(commands)), "records": [make.records() for _ in range(count)],
        "configurations": [make.config_line() for _ in range(300)] + some(configs)[:300],
        "services": [make.service_line() for _ in range(count)], "actors": [make.actor_file() for _ in range(count)],
        "heads": [make.head() for _ in range(count)], "seals": [make.frame() for _ in range(count)],
        "streams": [b"\n".join(some(lines)[:20]) for _ in range(200)], "plans": plans,
        "transcripts": [it for it in transcripts if len(it) < 4_000][:400],
        "schedules": [it for it in schedules if len(it) < 4_000][:400]}
