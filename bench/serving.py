"""A cluster of `fabricd` on 127.0.0.1 for the scripts: its processes are started, asked at their doors, killed, ended.

The program is that of the environment variable FABRICD; without it bin/fabricd proves and builds it first.
"""
import json
import os
import socket
import subprocess
import sys
import time
import urllib.request

TOP = os.path.dirname(os.path.dirname(os.path.realpath(__file__)))
BUILT = os.path.join(TOP, "crates", "fabricd", "out", "fabricd")


def program():
    """The program `fabricd`, as a path."""
    given = os.environ.get("FABRICD")
    if given:
        return os.path.realpath(given)
    ran = subprocess.run([os.path.join(TOP, "bin", "fabricd"), "--version"], stdout=subprocess.DEVNULL)
    if ran.returncode != 0:
        sys.exit("bin/fabricd does not run; FABRICD may name a built program")
    return BUILT


def empty_folder(path):
    """The folder, made where it is missing. Actors that find old records in it would go on with them."""
    os.makedirs(path, exist_ok=True)
    if os.listdir(path):
        sys.exit(f"{path} is not empty")
    return os.path.abspath(path)


def machine():
    """The processors and the load, for a line that says where something was measured."""
    with open("/proc/cpuinfo") as file:
        names = [line.partition(":")[2].strip() for line in file if line.startswith("model name")]
    return f"{len(names)} processors ({names[0] if names else 'unknown'}), load {os.getloadavg()[0]:.1f}"


class Asked(Exception):
    """The process did not answer."""


class Door:
    """A connection to the door of a process."""

    def __init__(self, folder, seconds=10.0):
        self.link = socket.socket(socket.AF_UNIX, socket.SOCK_STREAM)
        self.link.settimeout(seconds)
        self.tag, self.rest = 0, b""
        try:
            self.link.connect(os.path.join(folder, "door"))
        except OSError as error:
            self.link.close()
            raise Asked(str(error)) from error

    def ask(self, line):
        """The lines of the answer, without their tags, and without `done`."""
        self.tag += 1
        try:
            self.link.sendall(b"@%d %s\n" % (self.tag, line.encode()))
            return self.answer(b"@%d " % self.tag, b"done %d" % self.tag)
        except OSError as error:
            raise Asked(str(error)) from error

    def answer(self, tag, done):
        lines = []
        while True:
            line = self.line()
            if line == done:
                return lines
            if line.startswith(tag):
                lines.append(line[len(tag):].decode())

    def line(self):
        while b"\n" not in self.rest:
            came = self.link.recv(65_536)
            if not came:
                raise Asked("closed")
            self.rest += came
        line, self.rest = self.rest.split(b"\n", 1)
        return line

    def close(self):
        self.link.close()


class State:
    """What a node says of itself."""

    def __init__(self, lines):
        self.who, self.phase, self.owns, self.up = "", "", [], []
        self.replicas, self.changing = {}, {}
        for line in lines:
            words = line.split()
            if words[0] == "node":
                self.who, self.phase = words[1], words[2]
            elif words[0] == "owns" and words[1] != "-":
                self.owns = [tuple(int(it, 16) for it in part.split("-")) for part in words[1].split(",")]
            elif words[0] == "up" and words[1] != "-":
                self.up = [int(it) for it in words[1].split(",")]
            elif words[0] == "replica":
                self.replicas[int(words[1])] = (epoch(words[2]), words[3], int(words[4]))
            elif words[0] == "changing":
                self.changing[int(words[1])] = epoch(words[2])

    def manages(self):
        return self.phase == "routing" and any(lo == 0 for lo, _ in self.owns)


def reported(line):
    """The words of a line of an answer that is a report, without its turn, time, instance and reading."""
    words = line.split()
    return words[4:] if words[1:2] == ["-"] else words


def committed(lines, partition):
    """The epoch and the number of the entry that an answer to a write says is committed, or None."""
    said = [reported(it) for it in lines]
    taken = [it for it in said if it[:2] == ["accepted", str(partition)]]
    done = any(it[:2] == ["committed", str(partition)] for it in said)
    return tuple(taken[0][2:4]) if done and taken else None


def epoch(text):
    return tuple(int(it) for it in text.split("."))


class Actor:
    """A process of `fabricd` as a client sees it: its folder, its log, and its door."""

    def __init__(self, place, kind, number):
        self.kind, self.number = kind, number
        self.name = f"{kind}-{number}"
        self.folder = os.path.join(place, self.name)
        self.log = self.folder + ".log"
        self.door = None

    def is_running(self):
        return True

    def shut(self):
        if self.door:
            self.door.close()
            self.door = None

    def ask(self, line):
        """The lines of an answer; raises Asked where there is none."""
        if not self.is_running():
            raise Asked("it does not run")
        self.door = self.door or Door(self.folder)
        try:
            return self.door.ask(line)
        except Asked:
            self.shut()
            raise

    def state(self):
        """Its state, or None where it does not answer."""
        try:
            return State(self.ask("state"))
        except Asked:
            return None


class Process(Actor):
    """A process that was started here."""

    def __init__(self, cluster, kind, number):
        super().__init__(cluster.folder, kind, number)
        self.cluster, self.process = cluster, None

    def start(self):
        words = [self.cluster.program, self.kind, str(self.number), self.cluster.file, "--folder", self.folder]
        words += self.cluster.options(self)
        with open(self.log, "ab") as log, open(self.folder + ".errors", "ab") as errors:
            self.process = subprocess.Popen(words, stdin=subprocess.DEVNULL, stdout=log, stderr=errors)

    def is_running(self):
        return self.process is not None and self.process.poll() is None

    def kill(self):
        """Ends it with SIGKILL, and returns the time just before."""
        self.shut()
        at = time.monotonic()
        self.process.kill()
        self.process.wait()
        return at

    def end(self):
        if self.is_running():
            self.kill()
        self.shut()

    def page(self, path):
        with urllib.request.urlopen(f"http://{self.cluster.page_of(self)}{path}", timeout=5) as answer:
            return answer.read().decode()


class Nodes:
    """The nodes 1, 2 .. of a cluster, and what they know together."""

    def __init__(self, nodes):
        self.nodes = nodes

    def running(self):
        return [it for it in self.nodes if it.is_running()]

    def states(self):
        """The state of each node that answers, by its number."""
        found = {it.number: it.state() for it in self.running()}
        return {number: state for number, state in found.items() if state}

    def manager(self, states=None):
        """The node that holds point 0, or None."""
        found = [n for n, state in (states or self.states()).items() if state.manages()]
        return self.nodes[found[0] - 1] if len(found) == 1 else None

    def primary(self, partition, states=None):
        """The node that is the primary in the newest epoch that any member has promised, or None."""
        replicas = [(state.replicas[partition], n) for n, state in (states or self.states()).items()
                    if partition in state.replicas]
        if not replicas:
            return None
        newest = max(it[0][0] for it in replicas)
        found = [n for (at, role, _), n in replicas if role == "primary" and at == newest]
        return self.nodes[found[0] - 1] if found else None

    def copies(self, partition, states):
        """The nodes that have promised the epoch of the primary, and have its log to the end: its members, if all is
        well, and perhaps former ones. A member that began again has no role, and takes entries all the same.
        """
        node = self.primary(partition, states)
        if node is None:
            return []
        epoch_now, _, last = states[node.number].replicas[partition]
        replicas = [(state.replicas[partition], n) for n, state in states.items() if partition in state.replicas]
        return [n for (at, _, has), n in replicas if at == epoch_now and has == last]

    def write(self, partition, text, states=None):
        """Writes at the primary. The epoch and the number of the entry, or None where it was not committed."""
        node = self.primary(partition, states)
        try:
            lines = node.ask(f"write {partition} {text}") if node else []
        except Asked:
            return None
        return committed(lines, partition)


class Cluster(Nodes):
    """Nodes 1 to `nodes` at equal distances on the ring, each in a domain of its own, and arbitrators."""

    def __init__(self, folder, port, nodes, arbiters, ring, service, key=False):
        self.program, self.folder, self.port, self.key = program(), folder, port, None
        self.file = os.path.join(folder, "cluster")
        listed = [
            {"node": n, "point": f"{((n - 1) << 64) // nodes:016x}", "domain": n, "at": f"127.0.0.1:{port + n}"}
            for n in range(1, nodes + 1)
        ]
        voters = [{"arbiter": a, "at": f"127.0.0.1:{port + 80 + a}"} for a in range(1, arbiters + 1)]
        with open(self.file, "w") as file:
            for line in ({**ring, "nodes": listed, "arbiters": voters, "first": 1}, service):
                file.write(json.dumps(line, separators=(",", ":")) + "\n")
        if key:
            self.key = os.path.join(folder, "key")
            with open(os.open(self.key, os.O_CREAT | os.O_WRONLY, 0o600), "wb") as file:
                file.write(os.urandom(32))
        super().__init__([Process(self, "node", n) for n in range(1, nodes + 1)])
        self.arbiters = [Process(self, "arbiter", a) for a in range(1, arbiters + 1)]

    def page_of(self, process):
        return f"127.0.0.1:{self.port + (100 if process.kind == 'node' else 180) + process.number}"

    def options(self, process):
        return ["--page", self.page_of(process), *(["--key", self.key] if self.key else [])]

    def all(self):
        return [*self.arbiters, *self.nodes]

    def start(self):
        for it in self.all():
            it.start()

    def end(self):
        for it in self.all():
            it.end()


def wait_for(holds, seconds, pause=0.05):
    """Waits until something holds, and gives it; None where it does not within the time."""
    until = time.monotonic() + seconds
    while time.monotonic() < until:
        found = holds()
        if found:
            return found
        time.sleep(pause)
    return None
