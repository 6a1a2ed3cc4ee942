"""Runs of `fabric` and `fabricd` in which something fails by its number, each followed by a run on the same records.

A run is one process to which the fault comes, in a folder and at ports of its own, beside others that it needs. It
must end by itself, or by `end`, with a status of the table of docs/operations.md and the last line of that status;
its lines are of the format; the records are good, by the reader of chaos_records.py; and a run on the same records
ends well.
"""
import concurrent.futures
import json
import os
import re
import shutil
import signal
import subprocess
import sys
import tempfile
import threading
import time
import urllib.request

HERE = os.path.dirname(os.path.realpath(__file__))
TOP = os.path.dirname(os.path.dirname(HERE))
sys.dont_write_bytecode = True
sys.path[:0] = [HERE, os.path.dirname(HERE)]
from chaos_records import Bad, Records  # noqa: E402
from serving import Asked, Door  # noqa: E402

NOT_REACHED = 99
DEAF = -signal.SIGTERM  # its door took no client any more, so a signal ended it
TURNS = 120
PATIENCE = float(os.environ.get("PATIENCE", "4"))  # times the usual wait, where processes wait long for a processor
# A run takes a second or some. On a loaded machine a shorter lease would end in it.
RING = {"lease": 60_000, "answer": 20_000, "drift": 10, "grain": 5_000, "near": 1, "rounds": 2}
LINE = re.compile(rb"(\S+Z )?([0-9]+) -? ?(a?[0-9]+(\.[0-9]+)?) ([0-9]+|-) [a-z]+( .*)?")
EVENTS = rb"begin|unsealed|again passed|listening|slow|deaf|dropped|cannot heal|leaving|end|fault"
EVENT = re.compile(rb"(\S+Z )?(" + EVENTS + rb")\b.*")
LAST = {2: b"fault usage", 3: b"fault read", 5: b"fault config", 6: b"fault line", 8: b"fault nosuch",
        9: b"fault large", 10: b"fault keep", 11: b"fault link", 12: b"fault clock", 14: b"fault record",
        15: b"fault table", 16: b"fault service", 17: b"fault folder", 18: b"fault "}
WHOLE = "0000000000000000-ffffffffffffffff"
PLAN = ["1 2 join 1", "1 3 join 1", "40 1 create 7 3", "44 1 create 8 2", "60 1 write 7 a", "60 2 write 7 a",
        "60 3 write 7 a", "66 1 swap 7 2", "80 2 write 7 put b 1", f"82 2 names 7 {WHOLE}", "84 1 heal 8 2",
        f"90 1 units {WHOLE}", "95 1 find 8000000000000000", "100 1 lose 8 2"]


def program(name):
    given = os.environ.get(name.upper())
    if given:
        return os.path.realpath(given)
    subprocess.run([os.path.join(TOP, "bin", name), "--version"], stdout=subprocess.DEVNULL)
    return os.path.join(TOP, "crates", name, "out", name)


def library(folder):
    path = os.path.join(folder, "faulty.so")
    subprocess.run(["cc", "-shared", "-fPIC", "-O1", "-o", path, f"{HERE}/faulty.c", "-ldl"], check=True)
    return path


class Fault:
    """What fails: variables of the environment for the preloaded library, and words in front of the program."""

    def __init__(self, name, where=None, words=()):
        self.name, self.where, self.words = name, where or {}, list(words)


class Ended:
    def __init__(self, status, lines, note=""):
        self.status, self.lines, self.note = status, lines, note


class Crew:
    """Who runs, and how. `kind` is cluster, node, arbiter, or served; a place gives a folder and ports."""

    def __init__(self, kind, folder, place):
        self.kind, self.folder = kind, os.path.join(folder, f"{kind}-{place}")
        self.base = int(os.environ.get("FIRST_PORT", "43000")) + 40 * place
        self.others = []
        shutil.rmtree(self.folder, ignore_errors=True)
        os.makedirs(self.folder, mode=0o700)

    def config(self, nodes, arbiters):
        spread = {n: f"{((n - 1) << 64) // nodes:016x}" for n in range(1, nodes + 1)}
        listed = [{"node": n, "point": spread[n], "domain": n, "at": f"127.0.0.1:{self.base + n}"} for n in spread]
        voters = [{"arbiter": a, "at": f"127.0.0.1:{self.base + 20 + a}"} for a in range(1, arbiters + 1)]
        return json.dumps({**self.ring(), "nodes": listed, "arbiters": voters, "first": 1}, separators=(",", ":"))

    def ring(self):
        return RING

    def start(self, words, stdin, name, fault=None, where=None):
        place = os.path.join(self.folder, name)
        os.makedirs(place, mode=0o700, exist_ok=True)
        with open(os.path.join(place, "plan"), "w") as file:
            file.write(stdin)
        given = {**os.environ, **(where or {}), **(fault.where if fault else {})}
        words = [*(fault.words if fault else []), *words]
        plan = open(os.path.join(place, "plan"))
        with plan, open(place + ".out", "wb") as out, open(place + ".err", "wb") as errors:
            return subprocess.Popen(words, stdin=plan, stdout=out, stderr=errors, env=given, cwd=place)

    def lines(self, name):
        with open(os.path.join(self.folder, name) + ".out", "rb") as file:
            return file.read()

    def end(self):
        for it in self.others:
            it.kill()
            it.wait()
        self.others = []
        shutil.rmtree(self.folder, ignore_errors=True)


def wait(process, seconds):
    try:
        return process.wait(seconds)
    except subprocess.TimeoutExpired:
        process.kill()
        process.wait()
        return None


class Planned(Crew):
    """A process of `fabric`: a whole cluster, or one actor beside the others it needs."""

    def run(self, fabric, fault, turns=TURNS):
        words, plan = {
            "cluster": (["cluster"], self.config(3, 3) + "\n" + "\n".join(PLAN)),
            "node": (["node", "1"], self.config(2, 1) + f"\n30 create 7 2\n60 write 7 a\n90 names 7 {WHOLE}"),
            "arbiter": (["arbiter", "1"], self.config(2, 1)),
        }[self.kind]
        if self.kind != "cluster":
            self.beside(fabric, turns)
        plan = "\n".join(it for it in plan.split("\n") if it[:1] == "{" or int(it.split()[0]) <= turns)
        process = self.start([fabric, *words, str(turns)], plan + "\n", "it", fault)
        status = wait(process, 30 * PATIENCE)
        for it in self.others:
            it.kill()
            it.wait()
        self.others = []
        return Ended(status, self.lines("it"))

    def beside(self, fabric, turns):
        many = str(turns + 400)
        if self.kind == "node":
            self.others.append(self.start([fabric, "arbiter", "1", many], self.config(2, 1) + "\n", "a1"))
        else:
            plan = self.config(2, 1) + "\n40 create 7 2\n70 write 7 a\n"
            self.others.append(self.start([fabric, "node", "1", many], plan, "n1"))
        self.others.append(self.start([fabric, "node", "2", many], self.config(2, 1) + "\n1 join 1\n", "n2"))

    def place_of_it(self):
        return "it"

    def records(self):
        folder = os.path.join(self.folder, self.place_of_it(), "kept")
        names = os.listdir(folder) if os.path.isdir(folder) else []
        return [(os.path.join(folder, it), int(it)) for it in names]


class Served(Crew):
    """A process of `fabricd`: a node beside an arbitrator, or an arbitrator beside a node, and a client of it. The
    manager asks again after a quarter of a lease, so the lease is shorter."""

    def ring(self):
        return {**RING, "lease": 16_000, "answer": 5_000, "grain": 1_000}

    SERVICE = json.dumps({"join": [1], "partitions": [{"partition": 7, "replicas": 1}], "heal_after": 100,
                          "lines": "all"})

    def run(self, fabricd, fault, turns=TURNS):
        self.acknowledged = []
        file = os.path.join(self.folder, "file")
        with open(file, "w") as into:
            into.write(self.config(1, 1) + "\n" + self.SERVICE + "\n")
        kind = self.actor_kind()
        other = "arbiter" if kind == "node" else "node"
        self.others = [self.serve(fabricd, other, file)]
        process = self.serve(fabricd, kind, file, fault)
        asking = threading.Thread(target=self.ask_all, args=(kind, turns, process), daemon=True)
        asking.start()
        asking.join(40 * PATIENCE)
        status = self.end_of(process)
        for it in self.others:
            it.kill()
            it.wait()
        self.others = []
        return Ended(status, self.lines(kind), " ".join(self.said))

    def end_of(self, process):
        """The status. Where the door takes no client any more, nobody can order the end, and a signal is the end."""
        if "dropped" not in self.said:
            return wait(process, 20 * PATIENCE)
        try:
            return process.wait(2 * PATIENCE)
        except subprocess.TimeoutExpired:
            process.terminate()
            return wait(process, PATIENCE)

    def serve(self, fabricd, kind, file, fault=None):
        place = os.path.join(self.folder, kind)
        words = [fabricd, kind, "1", file, "--folder", place, "--page", self.page(kind)]
        return self.start(words, "", kind, fault)

    def page(self, kind):
        return f"127.0.0.1:{self.base + (30 if kind == 'node' else 31)}"

    def one(self, kind, line, seconds=4.0 * PATIENCE):
        """The lines of an answer, or none where the client was dropped."""
        try:
            door = Door(os.path.join(self.folder, kind), seconds)
            try:
                return door.ask(line)
            finally:
                door.close()
        except Asked:
            self.said.append("dropped")
            return []

    def ask_all(self, kind, turns, process):
        self.said, self.log = [], []
        until = time.monotonic() + 4 * PATIENCE
        while time.monotonic() < until and process.poll() is None:
            lines = self.one(kind, "state", 1.0 * PATIENCE)
            if kind == "arbiter" and lines or any(" primary " in it for it in lines):
                break
            time.sleep(0.05)
        if process.poll() is not None:
            return
        self.said = []
        asked = ["state"] if kind == "arbiter" else ["find 8000000000000000", f"units {WHOLE}"]
        if kind == "node":
            for count in range(2 if turns < TURNS else 4):
                lines = self.one(kind, f"write 7 entry {count}")
                if any(" committed 7 " in f" {it} " for it in lines):
                    self.acknowledged.append(f"entry {count}")
            asked += ["log 7 1 9", f"names 7 {WHOLE}", "heal 7 1", "no line", "state", "watch all"]
        for line in asked:
            self.one(kind, line)
        for path in ("metrics", "state", "healthz"):
            try:
                urllib.request.urlopen(f"http://{self.page(kind)}/{path}", timeout=2 * PATIENCE).read()
            except OSError:
                self.said.append("no-page")
        listed = [it.split(" ") for it in self.one(kind, "log 7 1 64")]
        self.log = [bytes.fromhex(it[4]).decode() for it in listed if it[0] == "entry"]
        for _ in range(5):
            self.one(kind, "end", 1.0 * PATIENCE)
            if not os.path.exists(os.path.join(self.folder, kind, "door")) or self.said[-1:] == ["dropped"]:
                break

    def actor_kind(self):
        return "node" if self.kind == "served" else "arbiter"

    def place_of_it(self):
        return self.actor_kind()

    def records(self):
        kind = self.actor_kind()
        actor = 1 if kind == "node" else 32_769
        path = os.path.join(self.folder, kind, "kept", str(actor))
        return [(path, actor)] if os.path.exists(path) else []


def faults_of(ended, statuses, is_heard=True):
    """What is wrong with how a run ended. Where it is not heard, since no write succeeds, it has no last line."""
    if ended.status is None:
        return "it did not end"
    if ended.status not in statuses:
        return f"status {ended.status}"
    if ended.status == DEAF:
        return None
    lines = ended.lines.split(b"\n")
    if lines[-1] and ended.status not in (1, 4):
        return f"the last line is cut: {lines[-1][:80]!r}"
    for line in lines[:-1]:
        if not LINE.fullmatch(line) and not EVENT.fullmatch(line):
            return f"a line of no form: {line[:80]!r}"
    want = LAST.get(ended.status)
    if want and is_heard and (len(lines) < 2 or want not in lines[-2]):
        return f"status {ended.status}, and the last line is {lines[-2:-1]}"
    return None


def bad_records(crew):
    for path, actor in crew.records():
        try:
            Records(path, actor).read_on()
        except Bad as bad:
            return str(bad)
    return None


class Sweep:
    """Runs with one fault each, some at a time, until the faults are not reached or the time is over."""

    def __init__(self, folder, jobs, statuses, seconds, look=None):
        """`look` is given each run that ended, its crew and its fault, and says what is wrong with it."""
        self.folder, self.jobs, self.statuses, self.look = folder, jobs, statuses, look
        self.until, self.places = time.monotonic() + seconds, list(range(jobs))
        self.lock, self.found, self.counts, self.reached = threading.Lock(), [], {}, 0

    def place(self):
        with self.lock:
            return self.places.pop()

    def one(self, make, program, fault):
        """The status of the run, or NOT_REACHED. What is wrong is noted."""
        place = self.place()
        crew = make(place)
        try:
            ended = crew.run(program, fault)
            if ended.status == NOT_REACHED:
                return NOT_REACHED
            with self.lock:
                self.reached = max(self.reached, int(fault.where.get("FROM", 0)))
            # 127: the loader failed before the program began. A signal of an alarm: strace did not come to it in 3 s.
            is_begun = not fault.words or ended.status not in (127, -signal.SIGALRM)
            is_heard = not re.match("write [0-9]+ from there on", fault.name)
            wrong = faults_of(ended, self.statuses, is_heard) if is_begun else None
            wrong = wrong or (bad_records(crew) and "records: " + bad_records(crew))
            wrong = wrong or (self.look and self.look(crew, fault, ended))
            before = list(getattr(crew, "acknowledged", []))
            if not wrong:
                wrong = self.again(crew, program, before)
            if wrong:
                self.note(crew, fault, wrong)
            key = ended.status, "dropped" if "dropped" in ended.note or "no-page" in ended.note else ""
            with self.lock:
                self.counts[key] = self.counts.get(key, 0) + 1
            return ended.status
        finally:
            crew.end()
            with self.lock:
                self.places.append(place)

    def again(self, crew, program, before):
        """A run on the same records, without the fault: it ends well, and has what was acknowledged."""
        ended = crew.run(program, None, 40)
        wrong = faults_of(ended, (0,))
        if wrong:
            return "the next run: " + wrong
        if before and [it for it in before if it not in crew.log]:
            return f"the next run lacks what was acknowledged: {before}, it has {crew.log}"
        return bad_records(crew)

    def note(self, crew, fault, wrong):
        with self.lock:
            kept = os.path.join(self.folder, f"wrong-{crew.kind}-{len(self.found)}")
            shutil.rmtree(kept, ignore_errors=True)
            self.found.append(f"{crew.kind}, {fault.name}: {wrong} ({kept})")
            shutil.copytree(crew.folder, kept, ignore=shutil.ignore_patterns("door"))
            print(self.found[-1], flush=True)

    def all(self, make, program, faults):
        """All these faults, in their order, as long as there is time. Gives how many were done."""
        done = 0
        with concurrent.futures.ThreadPoolExecutor(self.jobs) as pool:
            waiting, missed = {}, 0
            for fault in faults:
                if time.monotonic() > self.until or missed >= 3 * self.jobs:
                    break
                waiting[pool.submit(self.one, make, program, fault)] = fault
                if len(waiting) >= self.jobs:
                    ready = concurrent.futures.wait(waiting, return_when=concurrent.futures.FIRST_COMPLETED).done
                    for it in ready:
                        del waiting[it]
                        missed = missed + 1 if it.result() == NOT_REACHED else 0
                        done += it.result() != NOT_REACHED
            for it in waiting:
                done += it.result() != NOT_REACHED
        return done
