"""Three services with their nodes and three arbitrators on 127.0.0.1, behind links that lose and repeat frames."""
import json
import os
import signal
import socket
import subprocess
import sys
import threading
import time

from checks import Said

HERE = os.path.dirname(os.path.realpath(__file__))
HOST, PORT = "127.0.0.1", int(os.environ.get("KEYVALUE_PORT", 20100))
PORTS = 43
NODES, ARBITERS = (1, 2, 3), (1, 2, 3)
PARTITIONS = (1, 6)  # the first and the last one
LEASE = int(os.environ.get("KEYVALUE_LEASE", 600))
HOLD = LEASE * 2 // 3
PATIENCE = 30  # seconds, for what has to come
LOSE = REPEAT = 50  # per mille of the frames
RING = {"lease": LEASE, "answer": LEASE // 2, "drift": 1, "grain": LEASE // 3, "near": 1, "rounds": 2, "first": 1}
SERVICE = {
    "join": list(NODES),
    "partitions": [{"partition": p, "replicas": 3} for p in range(PARTITIONS[0], PARTITIONS[1] + 1)],
    "heal_after": LEASE,
}


def is_port_taken_by_connections():
    """Whether the system may give one of the ports to a connection. Who asks where nobody listens may then be connected
    with itself, and the service that belongs there cannot start."""
    with open("/proc/sys/net/ipv4/ip_local_port_range") as file:
        first, last = map(int, file.read().split())
    return first <= PORT + PORTS and PORT <= last


def address(place):
    return "%s:%d" % (HOST, PORT + place)


ADDRESSES = ",".join(map(address, NODES))


def now():
    return time.clock_gettime(time.CLOCK_BOOTTIME)


def read_ranges(text):
    return tuple(tuple(int(it, 16) for it in part.split("-")) for part in text.split(",")) if text != "-" else ()


def configuration():
    """Line 1 of FILE. Each `at` is a port of the proxy."""
    points = {n: "%016x" % ((n - 1) * 2**64 // len(NODES)) for n in NODES}
    nodes = [{"node": n, "point": points[n], "domain": n, "at": address(10 + n)} for n in NODES]
    arbiters = [{"arbiter": a, "at": address(20 + a)} for a in ARBITERS]
    return {**RING, "nodes": nodes, "arbiters": arbiters}


class State:
    """What a node says of itself at its door."""

    def __init__(self, lines):
        self.phase, self.owns, self.roles, self.changing = "", (), {}, set()
        for words in map(str.split, lines):
            if words[0] == "node":
                self.phase = words[2]
            elif words[0] == "owns":
                self.owns = read_ranges(words[1])
            elif words[0] == "replica":
                self.roles[int(words[1])] = words[3]
            elif words[0] == "changing":
                self.changing.add(int(words[1]))

    def share(self):
        return sum(hi - lo + 1 for lo, hi in self.owns) / 2**64

    def manages(self):
        return self.phase == "routing" and any(lo == 0 for lo, _ in self.owns)


class Service:
    """A service, life after life. Its log goes to `said`, and `stopped` is called where it stands still."""

    def __init__(self, cluster, number):
        self.cluster, self.number, self.process, self.lives = cluster, number, None, 0
        self.folder = os.path.join(cluster.place, "node-%d" % number)

    def start(self):
        it = self.cluster
        own = [str(self.number), ADDRESSES, "%d-%d" % PARTITIONS, "--try", it.tries]
        words = [*it.program_words, *own, "--", it.fabricd, "node", str(self.number), it.file, "--parent",
                 "--hold", str(HOLD), "--folder", self.folder, "--listen", address(30 + self.number), *it.key_words]
        self.lives, self.began = self.lives + 1, now()
        self.cluster.said.append(Said(self.began, self.number, "begin", ()))
        with open(self.folder + ".log", "a") as log:
            pipes = {"stdin": subprocess.PIPE, "stdout": subprocess.PIPE, "stderr": log}
            self.process = subprocess.Popen(words, **pipes, text=True, bufsize=1)
        threading.Thread(target=self.read, args=(self.process,), daemon=True).start()

    def read(self, process):
        with open(self.folder + ".events", "a", buffering=1) as events:
            for line in process.stdout:
                events.write(line)
                reading, word, *rest = line.split()
                if word == "ticket":
                    self.cluster.served.setdefault(rest[0], []).append((float(reading), self.number))
                elif word in ("gained", "losing", "lost"):
                    ranges = read_ranges(rest[0]) if word != "lost" else ()
                    self.cluster.said.append(Said(float(reading), self.number, word, ranges))
                elif word == "stopped":
                    self.cluster.stopped(self, process, rest[0])

    def go_on(self, process):
        try:
            process.stdin.write("go\n")
        except OSError:
            pass  # it has ended meanwhile

    def child(self):
        """The process of its node, or None."""
        try:
            with open("/proc/%d/task/%d/children" % (self.process.pid, self.process.pid)) as file:
                found = file.read().split()
        except OSError:
            return None
        return int(found[0]) if found else None

    def is_running(self):
        return self.process is not None and self.process.poll() is None

    def kill(self):
        if self.process is not None:
            self.process.kill()
            self.process.wait()

    def ask(self, line, seconds=1.0):
        """The lines of an answer at the door of its node; None without one."""
        try:
            with socket.socket(socket.AF_UNIX) as door:
                door.settimeout(seconds)
                door.connect(os.path.join(self.folder, "door"))
                door.sendall(b"@1 %s\n" % line.encode())
                got = b""
                while not got.endswith(b"done 1\n"):
                    piece = door.recv(65536)
                    if not piece:
                        return None
                    got += piece
        except OSError:
            return None
        return [it[3:] for it in got.decode().splitlines() if it.startswith("@1 ")]

    def state(self):
        lines = self.ask("state", 0.3) if self.is_running() else None
        return State(lines) if lines else None


class Cluster:
    def __init__(self, fabricd, program_words, tries, place, stopped, is_sealed=False):
        self.fabricd, self.program_words, self.tries, self.place = fabricd, program_words, tries, place
        self.stopped, self.said, self.served, self.files, self.begun = stopped, [], {}, 0, 0.0
        self.services = [Service(self, n) for n in NODES]
        self.arbiters = {}
        self.frames = [0, 0, 0]
        os.makedirs(place)
        self.key_words = self.make_key() if is_sealed else []
        self.write_file(SERVICE)

    def make_key(self):
        path = os.path.join(self.place, "key")
        with open(os.open(path, os.O_CREAT | os.O_WRONLY, 0o600), "wb") as file:
            file.write(os.urandom(32))
        return ["--key", path]

    def write_file(self, service):
        self.files += 1
        self.file = os.path.join(self.place, "file-%d" % self.files)
        with open(self.file, "w") as file:
            for line in (configuration(), service):
                file.write(json.dumps(line, separators=(",", ":")) + "\n")

    def arbiter_folder(self, number):
        return os.path.join(self.place, "arbiter-%d" % number)

    def start_arbiter(self, number):
        folder = self.arbiter_folder(number)
        words = [self.fabricd, "arbiter", str(number), self.file, "--folder", folder, "--listen", address(40 + number),
                 *self.key_words]
        with open(folder + ".log", "a") as log:
            self.arbiters[number] = subprocess.Popen(words, stdin=subprocess.DEVNULL, stdout=log, stderr=log)

    def kill_arbiter(self, number):
        self.arbiters[number].kill()
        self.arbiters[number].wait()

    def start_proxy(self):
        routes = ["%d:%d" % (PORT + base + n, PORT + base + 20 + n) for base in (10, 20) for n in NODES]
        words = [sys.executable, os.path.join(HERE, "proxy.py"), HOST, *routes, str(LOSE), str(REPEAT)]
        self.proxy = subprocess.Popen(words, stdin=subprocess.PIPE, stdout=subprocess.PIPE, text=True)

    def start(self):
        self.start_proxy()
        self.start_actors()

    def start_actors(self):
        self.begun = now()
        for number in ARBITERS:
            self.start_arbiter(number)
        for it in self.services:
            it.start()

    def stop_actors(self):
        """Kills all services, all nodes and all arbitrators, and waits for their ends."""
        children = [it.child() for it in self.services if it.is_running()]
        for it in self.services:
            it.kill()
        for child in children:
            kill_process(child)
        for number in self.arbiters:
            self.kill_arbiter(number)
        while any(child and os.path.exists("/proc/%d/fd" % child) for child in children):
            time.sleep(0.01)

    def begin_again(self):
        """A ring of which too much has no holder any more begins again, with what its partitions have."""
        self.stop_actors()
        folders = [it.folder for it in self.services] + [self.arbiter_folder(a) for a in ARBITERS]
        for _ in range(PATIENCE):
            said = subprocess.run([self.fabricd, "again", self.file, *folders], capture_output=True, text=True)
            if said.returncode == 0:
                self.write_file({**json.loads(said.stdout), "partitions": SERVICE["partitions"]})
                self.start_actors()
                return
            time.sleep(1)  # a node whose service was killed just before has not ended yet
        raise SystemExit("fabricd again says %s" % said.stdout.strip())

    def log_of(self, partition):
        """The texts of a log, once the primary has committed one more. If none does, the ring begins again."""
        asked = now()
        while now() < asked + 4 * PATIENCE:
            for it in self.services:
                lines = it.ask("write %d ?" % partition, 5.0)
                if lines and any(" committed %d " % partition in line for line in lines):
                    return entries_of(it, partition)
            time.sleep(1)
            if now() > max(asked, self.begun) + PATIENCE / 2:
                self.begin_again()
        raise SystemExit("partition %d has no primary" % partition)

    def slow_turns(self):
        """How many lines say that a turn took longer than `grain`. Then a premise of the fabric did not hold."""
        count = 0
        for name in os.listdir(self.place):
            if name.endswith(".log"):
                with open(os.path.join(self.place, name)) as log:
                    count += sum(" slow " in line for line in log)
        return count

    def end(self):
        self.stop_actors()
        if self.proxy:
            said, _ = self.proxy.communicate("", timeout=10)
            self.frames = [int(it) for it in said.split()]


def entries_of(service, partition):
    texts = []
    while True:
        lines = service.ask("log %d %d 64" % (partition, len(texts) + 1), 5.0)
        if lines is None:
            raise SystemExit("the log of partition %d cannot be read" % partition)
        texts += [bytes.fromhex(it.split()[4]).decode() for it in lines]
        if len(lines) < 64:
            return texts


def kill_process(process):
    if process:
        try:
            os.kill(process, signal.SIGKILL)
        except ProcessLookupError:
            pass
