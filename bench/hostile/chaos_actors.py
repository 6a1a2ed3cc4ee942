"""The actors of a chaotic cluster: processes of `fabricd` and of `fabric`, killed, stopped, and started again."""
import datetime
import json
import os
import random
import shutil
import signal
import subprocess
import sys
import threading
import time

HERE = os.path.dirname(os.path.realpath(__file__))
sys.path.insert(0, os.path.dirname(HERE))
sys.dont_write_bytecode = True
from serving import Actor, Asked, Door, Nodes, State  # noqa: E402

LEASE = int(os.environ.get("CHAOS_LEASE", "1000"))  # ticks: more where processes wait long for a processor
RING = {"lease": LEASE, "answer": 2 * LEASE // 5, "drift": 10, "grain": LEASE // 20, "near": 2, "rounds": 2}
PARTITIONS = (1, 2, 3)
SERVICE = {"join": [1, 2, 3, 4, 5], "partitions": [{"partition": p, "replicas": 3} for p in PARTITIONS],
           "heal_after": LEASE // 2, "lines": "all"}
NODES, ARBITERS = 5, 3
LISTENS, ADDRESSES = 41_000, 42_000  # where actors listen, and what others take for that
DISK = 24 << 20  # bytes of the disk of an actor
TURNS = 1_000_000_000
BOUND = 10_000  # parts of a million: the drift of 10 per mille


def stamp():
    return f"{datetime.datetime.utcnow():%Y-%m-%dT%H:%M:%S.%f}"[:-3] + "Z"


def is_whole(path):
    """Whether the file ends with a whole record. A process appends only behind such an end."""
    with open(path, "rb") as file:
        data = file.read()
    place = 0
    while place + 2 <= len(data):
        place += 2 + int.from_bytes(data[place:place + 2], "big")
    return place == len(data)


class Process(Actor):
    """An actor: how it is started next, and how it ended."""

    def __init__(self, cluster, kind, number, program):
        super().__init__(cluster.folder, kind, number)
        self.cluster, self.program, self.process = cluster, program, None
        self.is_served = os.path.basename(program).startswith("fabricd")
        self.actor = number if kind == "node" else 32_768 + number
        self.rate, self.starts, self.ends, self.is_paused = 0, [], [], False
        self.sync_fault, self.is_full, self.may_end, self.ends_by_signal = None, False, False, False
        os.makedirs(self.folder, mode=0o700)
        if cluster.has_disks:
            size = f"size={DISK},mode=0700"
            subprocess.run(["mount", "-t", "tmpfs", "-o", size, "none", self.folder], check=True)

    def records(self):
        return os.path.join(self.folder, "kept", str(self.actor))

    def words(self):
        listens = f"127.0.0.1:{LISTENS + self.actor % 1000}"
        if not self.is_served:
            return [self.program, self.kind, str(self.number), str(TURNS)]
        words = [self.program, self.kind, str(self.number), self.cluster.file, "--folder", self.folder]
        words += ["--listen", listens]
        return words + (["--key", self.cluster.key] if self.cluster.key else [])

    def start(self):
        """The next process. A fault of a sync comes by strace, so the process is traced by a grandchild of its own."""
        words = self.words()
        if self.sync_fault:
            number, what = self.sync_fault
            calls = "fsync,fdatasync"
            words = ["strace", "-D", "-f", "-qq", "-o", "/dev/null", "-e", f"trace={calls}", "-e",
                     f"inject={calls}:{what}:when={number}", *words]
        self.rate = self.rate if self.cluster.library else 0
        where = {**os.environ, "LD_PRELOAD": self.cluster.library or "", "RATE": str(self.rate)}
        self.starts.append((time.time(), self.rate))
        self.may_end = self.is_full or self.sync_fault is not None
        self.ends_by_signal = self.sync_fault is not None and "KILL" in self.sync_fault[1]
        self.sync_fault = None
        with open(self.folder + ".errors", "ab") as errors:
            how = {"stderr": errors, "env": where}
            if self.is_served:
                with open(self.log, "ab") as log:
                    self.process = subprocess.Popen(words, stdin=subprocess.DEVNULL, stdout=log, **how)
                return
            how.update(stdout=subprocess.PIPE, cwd=self.folder, text=True)
            with open(self.plan()) as plan:
                self.process = subprocess.Popen(words, stdin=plan, **how)
        threading.Thread(target=self.write_log, args=(self.process.stdout,), daemon=True).start()

    def plan(self):
        """The plan of a process of `fabric`: it asks to join again and again, one node after the other."""
        path = self.folder + ".plan"
        listed = json.loads(json.dumps(self.cluster.ring))
        for it in listed["nodes"] + listed["arbiters"]:
            if it.get(self.kind) == self.number:
                it["at"] = f"127.0.0.1:{LISTENS + self.actor % 1000}"
        with open(path, "w") as file:
            file.write(json.dumps(listed, separators=(",", ":")) + "\n")
            if self.kind == "node":
                others = [n for n in range(1, NODES + 1) if n != self.number]
                file.writelines(f"{1 + 60 * turn} join {others[turn % len(others)]}\n" for turn in range(2_000))
        return path

    def write_log(self, lines):
        """What a process of `fabric` reports gets the time of day in front, as the log of `fabricd` has it."""
        with open(self.log, "a") as log:
            for line in lines:
                log.write(f"{stamp()} {line}")
                log.flush()

    def is_running(self):
        return self.process is not None and self.process.poll() is None

    def kill(self):
        """Ends it with SIGKILL; says whether it ran."""
        ran = self.is_running()
        self.may_end = self.ends_by_signal = True
        self.is_paused = False
        if self.process is not None:
            self.process.send_signal(signal.SIGKILL)
            self.process.wait()
            self.ended()
        return ran

    def ended(self):
        """It runs no more, since now at the latest."""
        self.process, self.is_paused = None, False
        self.ends.append(time.time() * 1000)

    def pause(self):
        if self.is_running() and not self.is_paused:
            self.is_paused = True
            self.process.send_signal(signal.SIGSTOP)

    def go_on(self):
        if self.is_running() and self.is_paused:
            self.process.send_signal(signal.SIGCONT)
        self.is_paused = False

    def tear(self, draws):
        """A part of a record at the end of the file, as an append leaves it that the machine cut short."""
        path = self.records()
        if self.is_running() or not os.path.exists(path) or not is_whole(path):
            return False
        size = draws.randint(2, 600)
        part = size.to_bytes(2, "big") + draws.randbytes(size)
        try:
            with open(path, "ab", buffering=0) as file:
                return file.write(part[:draws.randint(1, size + 1)]) > 0
        except OSError:  # the disk is full
            return False

    def fill_disk(self):
        """A file that takes all that is left of the disk."""
        self.is_full = self.may_end = True
        try:
            with open(os.path.join(self.folder, "filler"), "wb") as file:
                while True:
                    file.write(bytes(1 << 16))
                    file.flush()
        except OSError:
            pass

    def free_disk(self):
        self.is_full = False
        try:
            os.unlink(os.path.join(self.folder, "filler"))
        except FileNotFoundError:
            pass

    def start_before(self, moment):
        """When the process of this time was started, and the rate of its clock."""
        return next(((at, rate) for at, rate in reversed(self.starts) if at <= moment + 0.001), (0, 0))


class Client(Nodes):
    """The nodes at their doors, by connections of this client alone."""

    def __init__(self, cluster, seconds=1.5 * LEASE / 1000):
        super().__init__([Seen(it, seconds) for it in cluster.nodes])

    def running(self):
        return [it for it in self.nodes if it.is_running()]


class Seen:
    """A node as one client sees it."""

    def __init__(self, process, seconds):
        self.it, self.seconds, self.door, self.number = process, seconds, None, process.number

    def is_running(self):
        return self.it.is_served and self.it.is_running() and not self.it.is_paused

    def ask(self, line):
        try:
            self.door = self.door or Door(self.it.folder, self.seconds)
            return self.door.ask(line)
        except Asked:
            if self.door:
                self.door.close()
            self.door = None
            raise

    def state(self):
        try:
            return State(self.ask("state"))
        except Asked:
            return None


class Cluster(Nodes):
    """Five nodes and three arbitrators. Where frames are not sealed, the last of each is a process of `fabric`."""

    def __init__(self, folder, fabric, fabricd, library, is_sealed, has_disks):
        self.folder, self.library, self.has_disks, self.key, self.files = folder, library, has_disks, None, 0
        self.fabric, self.fabricd = fabric, fabricd
        spread = {n: f"{((n - 1) << 64) // NODES:016x}" for n in range(1, NODES + 1)}
        listed = [{"node": n, "point": spread[n], "domain": n, "at": f"127.0.0.1:{ADDRESSES + n}"} for n in spread]
        voters = [{"arbiter": a, "at": f"127.0.0.1:{ADDRESSES + (32_768 + a) % 1000}"} for a in range(1, ARBITERS + 1)]
        self.ring = {**RING, "nodes": listed, "arbiters": voters, "first": 1}
        self.write_file(SERVICE)
        if is_sealed:
            self.key = os.path.join(folder, "key")
            with open(os.open(self.key, os.O_CREAT | os.O_WRONLY, 0o600), "wb") as file:
                file.write(random.randbytes(32))
        plain = None if is_sealed else fabric
        super().__init__([Process(self, "node", n, plain if plain and n == NODES else fabricd) for n in spread])
        self.arbiters = [Process(self, "arbiter", a, plain if plain and a == ARBITERS else fabricd)
                         for a in range(1, ARBITERS + 1)]

    def write_file(self, service):
        self.files += 1
        self.file = os.path.join(self.folder, f"file-{self.files}")
        with open(self.file, "w") as file:
            for line in (self.ring, service):
                file.write(json.dumps(line, separators=(",", ":")) + "\n")

    def all(self):
        return [*self.arbiters, *self.nodes]

    def places(self):
        return {it.actor: (ADDRESSES + it.actor % 1000, LISTENS + it.actor % 1000) for it in self.all()}

    def again(self):
        """All have ended: the file by which the ring begins again. Its line 2 is what `fabricd again` says."""
        folders = [it.folder for it in self.all() if it.is_served]
        if any(not it.is_served for it in self.all()):
            self.adopt_plain()
            folders = [it.folder for it in self.all()]
        done = subprocess.run([self.fabricd, "again", self.file, *folders], stdout=subprocess.PIPE, text=True)
        if done.returncode:
            return done.stdout.strip()
        line = json.loads(done.stdout)
        line["partitions"] = SERVICE["partitions"]
        if line["again"]["node"] == NODES and not self.nodes[-1].is_served:
            # Only `fabricd` begins again with the whole ring. It goes on with the records of `fabric`.
            self.nodes[-1].program, self.nodes[-1].is_served = self.fabricd, True
        self.write_file(line)
        return None

    def adopt_plain(self):
        """Gives the folders of processes of `fabric` the file `actor` that `fabricd again` looks for."""
        for it in self.all():
            path = os.path.join(it.folder, "actor")
            if not it.is_served and not os.path.exists(path):
                other = next(one for one in self.all() if one.is_served)
                with open(os.path.join(other.folder, "actor")) as file:
                    words = file.readline().split()
                words[2] = str(it.number) if it.kind == "node" else f"a{it.number}"
                with open(path, "w") as file:
                    file.write(" ".join(words) + "\nbegan\n")

    def end(self):
        for it in self.all():
            it.kill()
            if self.has_disks:
                shutil.copytree(it.folder, it.folder + ".kept", dirs_exist_ok=True,
                                ignore=shutil.ignore_patterns("door", "filler"))
                subprocess.run(["umount", it.folder], check=False)
