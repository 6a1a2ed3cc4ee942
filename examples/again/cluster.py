"""A cluster of processes of fabricd, each with a folder of its own, and clients that write to it. Used by `run`."""
import json
import os
import signal
import socket
import subprocess
import threading
import time

HERE = os.path.dirname(os.path.abspath(__file__))
NODES, ARBITERS, PARTITIONS = range(1, 6), range(1, 4), (7, 8, 9)
NAMES = [str(n) for n in NODES] + ["a%d" % a for a in ARBITERS]
PATIENCE = 120.0  # seconds for what has to come
PAUSE = 0.02  # seconds between two writes to a partition


class Missed(Exception):
    """Something that has to hold does not."""


def need(holds, what):
    if not holds:
        raise Missed(what)


def await_that(test, what, patience=PATIENCE):
    """Waits until the test gives something, and gives it."""
    until = time.monotonic() + patience
    while time.monotonic() < until:
        got = test()
        if got:
            return got
        time.sleep(0.1)
    raise Missed("%s: did not come within %d seconds" % (what, patience))


def ask(folder, line, patience=5.0):
    """The lines of the answer without their tag, or None where no process answers."""
    try:
        with socket.socket(socket.AF_UNIX, socket.SOCK_STREAM) as door:
            door.settimeout(patience)
            door.connect(os.path.join(folder, "door"))
            door.sendall(b"@1 %s\n" % line.encode())
            got = b""
            while not got.endswith(b"\ndone 1\n") and got != b"done 1\n":
                piece = door.recv(65536)
                if not piece:
                    return None
                got += piece
    except OSError:
        return None
    return [it[3:] for it in got.decode().splitlines() if it.startswith("@1 ")]


class Cluster:
    """The folders of a cluster, and the processes that run in them."""

    def __init__(self, program, place):
        self.program, self.place, self.running, self.files = program, place, {}, 0
        with open(os.path.join(HERE, "cluster.file")) as source:
            self.first_line, self.second_line = source.read().splitlines()
        self.write_file(json.loads(self.second_line))

    def write_file(self, service):
        """FILE from now on: its line 2 is this object."""
        self.files += 1
        self.file = os.path.join(self.place, "file-%d" % self.files)
        with open(self.file, "w") as into:
            into.write("%s\n%s\n" % (self.first_line, json.dumps(service, separators=(",", ":"))))

    def folder(self, name):
        return os.path.join(self.place, name)

    def log(self, name):
        try:
            with open(self.folder(name) + ".log") as source:
                return source.read()
        except FileNotFoundError:
            return ""

    def start(self, name):
        kind, number = ("arbiter", name[1:]) if name[0] == "a" else ("node", name)
        words = [self.program, kind, number, self.file, "--folder", self.folder(name)]
        with open(self.folder(name) + ".log", "a") as out, open(self.folder(name) + ".errors", "a") as errors:
            self.running[name] = subprocess.Popen(words, stdout=out, stderr=errors, stdin=subprocess.DEVNULL)

    def start_all(self, but=()):
        for name in NAMES:
            if name not in but:
                self.start(name)

    def cut(self):
        """Kills all processes at once."""
        for it in self.running.values():
            it.send_signal(signal.SIGKILL)
        for it in self.running.values():
            it.wait()
        self.running = {}

    def ends_with(self, name):
        """The status and the last line of a start that is refused."""
        self.start(name)
        status = self.running[name].wait(20)
        del self.running[name]
        return status, self.log(name).splitlines()[-1]

    def again(self, but=()):
        """What `fabricd again` says of the folders: its status and its line."""
        folders = [self.folder(name) for name in NAMES if name not in but]
        done = subprocess.run([self.program, "again", self.file, *folders], capture_output=True, text=True, timeout=60)
        return done.returncode, done.stdout.rstrip("\n")

    def state(self, name):
        return (ask(self.folder(name), "state") or []) if name in self.running else []

    def primary(self, partition):
        """The node that leads the partition, by the greatest epoch if two say so."""
        found = []
        for node in map(str, NODES):
            for words in map(str.split, self.state(node)):
                if words[:2] == ["replica", str(partition)] and words[3] == "primary":
                    found.append(([int(it) for it in words[2].split(".")], node))
        return max(found)[1] if found else None

    def write(self, node, partition, text):
        """Whether the write was acknowledged."""
        lines = ask(self.folder(node), "write %d %s" % (partition, text)) or []
        return any(" committed %d " % partition in " %s " % it for it in lines)

    def entries(self, node, partition):
        """The texts in the log of a node, in their order."""
        texts = []
        while True:
            lines = ask(self.folder(node), "log %d %d 64" % (partition, len(texts) + 1)) or []
            part = [bytes.fromhex(it.split()[4]).decode() for it in lines if it.startswith("entry ")]
            texts += part
            if len(part) < 64:
                return texts


class Writer(threading.Thread):
    """Writes to a partition until it is told to stop, one write after another."""

    def __init__(self, cluster, partition, life, acknowledged):
        super().__init__(daemon=True)
        self.cluster, self.partition, self.life, self.acknowledged = cluster, partition, life, acknowledged
        self.stopped, self.tried = threading.Event(), 0

    def run(self):
        node = None
        while not self.stopped.is_set():
            node = node or self.cluster.primary(self.partition)
            if node is None:
                time.sleep(0.1)
                continue
            self.tried += 1
            text = "%s.%d.%d" % (self.life, self.partition, self.tried)
            if self.cluster.write(node, self.partition, text):
                self.acknowledged.append(text)
            else:
                node = None
            time.sleep(PAUSE)
