"""A cluster of `fabricd` processes on 127.0.0.1, each in a folder of its own, for scripts that show what an operator does.

What is done is printed as an operator would type it, and so is what the processes say to it.
"""
import http.client
import json
import os
import re
import shlex
import shutil
import signal
import subprocess
import tempfile
import time

PATIENCE = 90.0  # seconds for what a case waits for
POINTS = 1 << 64


class Failed(Exception):
    """What a case waited for did not come."""


def number_of(name):
    return int(name.split("-")[1])


class Cluster:
    """Nodes and arbitrators by their names, `node-1` and `arbiter-1`. All of them are ended at the end of `with`."""

    def __init__(self, program, nodes, arbiters=3, port=46100, rooms=None, service=None, quiet=False, **ring):
        self.program, self.port, self.quiet = program, port, quiet
        self.nodes = ["node-%d" % n for n in range(1, nodes + 1)]
        self.arbiters = ["arbiter-%d" % a for a in range(1, arbiters + 1)]
        self.rooms = rooms or {}
        self.ring = {"lease": 1500, "answer": 500, "drift": 10, "grain": 200, "near": 2, "rounds": 2, **ring}
        self.service = {"join": list(range(1, min(nodes, 64) + 1)), **(service or {})}
        self.processes, self.marks, self.here = {}, {}, tempfile.mkdtemp(prefix="fabricd-")
        self.began = time.monotonic()
        self.write_file()

    def __enter__(self):
        return self

    def __exit__(self, *error):
        for process in self.processes.values():
            process.kill()
            process.wait()
        shutil.rmtree(self.here, ignore_errors=True)

    # What an operator has: FILE, folders, pages.

    def path(self, *names):
        return os.path.join(self.here, *names)

    def configuration(self):
        step = POINTS // len(self.nodes)
        nodes = [
            {"node": n, "point": "%016x" % (step * (n - 1)), "domain": self.rooms.get(n, n), "at": "127.0.0.1:%d" % (self.port + n)}
            for n in map(number_of, self.nodes)
        ]
        arbiters = [
            {"arbiter": a, "at": "127.0.0.1:%d" % (self.port + 80 + a)} for a in map(number_of, self.arbiters)
        ]
        return {**self.ring, "nodes": nodes, "arbiters": arbiters, "first": 1}

    def write_file(self, name="cluster", configuration=None, service=None):
        with open(self.path(name), "w") as into:
            json.dump(configuration or self.configuration(), into, separators=(",", ":"))
            into.write("\n")
            json.dump(self.service if service is None else service, into, separators=(",", ":"))
            into.write("\n")

    def page(self, name):
        return self.port + (100 if name in self.nodes else 180) + number_of(name)

    # What is printed.

    def say(self, text):
        if not self.quiet:
            print(text, flush=True)

    def typed(self, words):
        self.say("$ " + " ".join(shlex.quote(word) for word in words))

    # Processes.

    def start(self, name, file="cluster", say=True, before=(), options=(), environment=None, **more):
        """Starts an actor, and waits until its door is there."""
        kind, number = name.split("-")
        words = ["fabricd", kind, number, file, "--folder", name, "--page", "127.0.0.1:%d" % self.page(name), *options]
        if say:
            self.typed([*before, *words])
        with open(self.path(name + ".log"), "ab") as log, open(self.path(name + ".errors"), "ab") as errors:
            self.marks[name] = log.tell()
            self.processes[name] = subprocess.Popen(
                [*before, self.program, *words[1:]], stdout=log, stderr=errors, stdin=subprocess.DEVNULL, cwd=self.here,
                env={**os.environ, **(environment or {})}, **more,
            )
        self.until("%s opens its door" % name, lambda: self.has_door(name) or self.has_ended(name), 20)

    def start_all(self, names=None):
        """Starts the arbitrators, the first node, and then the others; waits until each node is in the ring."""
        names = names if names is not None else [*self.arbiters, *self.nodes]
        for name in names:
            self.start(name, say=False)
        self.settle([name for name in names if name in self.nodes])

    def settle(self, nodes):
        self.until("each node routes", lambda: all(self.state(name).get("phase") == "routing" for name in nodes))

    def has_door(self, name):
        return os.path.exists(self.path(name, "door")) and bool(self.state(name))

    def has_ended(self, name):
        return self.processes[name].poll() is not None

    def signal(self, word, *names):
        self.typed(["kill", "-" + word, *names])
        for name in names:
            self.processes[name].send_signal(getattr(signal, "SIG" + word))
            if word == "KILL":
                self.processes[name].wait()

    def remove(self, name):
        self.typed(["rm", "-r", name])
        shutil.rmtree(self.path(name))

    def status(self, name, seconds=30):
        """The status with which the process ends, and its last line."""
        status = self.processes[name].wait(seconds)
        last = self.log(name, whole=True)[-1]
        self.say("%s ends with status %d: %s" % (name, status, re.sub(r"^\S+T\S+Z ", "", last)))
        return status

    # Questions.

    def ask(self, name, *lines, say=True, only=None):
        """What the process answers, without tags; and the status."""
        if say:
            self.typed(["fabricd", "ask", name, *lines])
        done = subprocess.run([self.program, "ask", name, *lines], cwd=self.here, capture_output=True, text=True)
        answer = [re.sub(r"^@\d+ ", "", line) for line in done.stdout.splitlines() if not line.startswith("done ")]
        if say:
            for line in answer:
                if only is None or re.search(only, line):
                    self.say("  " + line)
            if done.returncode:
                self.say("  (status %d)" % done.returncode)
        return answer, done.returncode

    def get(self, name, path):
        link = http.client.HTTPConnection("127.0.0.1", self.page(name), timeout=1)
        try:
            link.request("GET", path)
            return link.getresponse().read().decode()
        except (OSError, http.client.HTTPException):
            return ""
        finally:
            link.close()

    def state(self, name):
        try:
            return json.loads(self.get(name, "/state"))
        except ValueError:
            return {}

    def metrics(self, name):
        """The samples of the page, by their names with labels."""
        samples = [line.rpartition(" ") for line in self.get(name, "/metrics").splitlines() if not line.startswith("#")]
        return {words[0][len("fabricd_"):]: float(words[2]) for words in samples if words[0]}

    def show(self, name, *samples):
        """Prints samples of the page."""
        self.say("$ curl -s http://127.0.0.1:%d/metrics | grep -E '%s'" % (self.page(name), "|".join(samples)))
        for line in self.get(name, "/metrics").splitlines():
            if not line.startswith("#") and any(re.search(one, line) for one in samples):
                self.say("  " + line)

    # Waiting.

    def until(self, what, holds, seconds=PATIENCE):
        last = time.monotonic() + seconds
        while not holds():
            if time.monotonic() > last:
                raise Failed("%s: not within %d seconds" % (what, seconds))
            time.sleep(0.05)

    def log(self, name, whole=False):
        """The lines of the log since the last start, or since the last mark."""
        with open(self.path(name + ".log"), "rb") as file:
            file.seek(0 if whole else self.marks.get(name, 0))
            return file.read().decode().splitlines()

    def mark(self, *names):
        """What the logs have so far is not waited for any more."""
        for name in names or list(self.processes):
            self.marks[name] = os.path.getsize(self.path(name + ".log"))

    def saw(self, pattern, names=None, seconds=PATIENCE, say=True):
        """Waits until a log has a line with the pattern, and prints the first one. Returns its name and its line."""
        found = []

        def look():
            for name in names or list(self.processes):
                for line in self.log(name):
                    if re.search(pattern, line):
                        found.append((name, line))
                        return True
            return False

        began = time.monotonic()
        self.until("a log with '%s'" % pattern, look, seconds)
        name, line = found[0]
        if say:
            self.say("after %.1f s, log of %s: %s" % (time.monotonic() - began, name, re.sub(r"^\S+T\S+Z ", "", line)))
        return name, line

    # The cluster.

    def living(self):
        return [name for name in self.nodes if name in self.processes and not self.has_ended(name)]

    def manager(self, names=None):
        for name in names or self.living():
            state = self.state(name)
            if state.get("phase") == "routing" and any(part.startswith("0" * 16) for part in state["owns"]):
                return name
        return None

    def replicas(self, partition, names=None):
        """Of each node that has a replica: its role, epoch and last entry."""
        found = {}
        for name in names or self.living():
            for one in self.state(name).get("replicas", []):
                if one["partition"] == partition:
                    found[name] = (one["role"], one["epoch"], one["last"])
        return found

    def primary(self, partition, names=None):
        return self.primary_in(self.replicas(partition, names))

    @staticmethod
    def primary_in(replicas):
        found = [(tuple(map(int, epoch.split("."))), name) for name, (role, epoch, _) in replicas.items() if role == "primary"]
        return max(found)[1] if found else None

    def members(self, partition, names=None):
        """The nodes that take the entries of the primary: those of its epoch with its log. One that began again has no role."""
        replicas = self.replicas(partition, names)
        at = self.primary_in(replicas)
        return sorted((name for name, one in replicas.items() if at and one[1:] == replicas[at][1:]), key=number_of)

    def await_members(self, partition, count, names=None, seconds=PATIENCE):
        what = "partition %d has %d members" % (partition, count)
        began = time.monotonic()
        self.until(what, lambda: len(self.members(partition, names)) == count, seconds)
        at = self.primary(partition, names)
        self.say("after %.1f s, partition %d: primary %s, members %s" % (
            time.monotonic() - began, partition, at, ", ".join(self.members(partition, names))))

    def write(self, partition, text, names=None, seconds=PATIENCE):
        """Writes at the primary until an entry is committed; says at which node and after how long."""
        began, said = time.monotonic(), []

        def committed():
            at = self.primary(partition, names)
            if at is None:
                return False
            answer, status = self.ask(at, "write %d %s" % (partition, text), say=False)
            said[:] = [at, answer]
            return status == 0

        self.until("a committed write", committed, seconds)
        self.say("$ fabricd ask %s %s" % (said[0], shlex.quote("write %d %s" % (partition, text))))
        for line in said[1]:
            self.say("  " + line)
        return time.monotonic() - began

    def share(self, names=None):
        return sum(self.metrics(name).get("ring_share", 0) for name in names or self.living())

    def await_whole(self, names=None):
        """Waits until the given nodes hold the whole ring."""
        began = time.monotonic()
        self.until("the whole ring is held", lambda: self.share(names) > 0.9999)
        self.say("after %.1f s the nodes %s own the whole ring" % (
            time.monotonic() - began, ", ".join(names or self.living())))
