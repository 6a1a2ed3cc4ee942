"""Where bench/commands runs the commands of the pages: a copy of the repository, a folder of files, a cluster."""
import os
import re
import shutil
import signal
import subprocess
import time

from serving import TOP, Cluster, Process, wait_for

RING = {"lease": 4000, "answer": 1500, "drift": 10, "grain": 400, "near": 1}
SERVICE = {"join": [1, 2, 3], "partitions": [{"partition": 7, "replicas": 3}], "heal_after": 2000}
WHOLE = "0000000000000000-ffffffffffffffff"


class Bench:
    """The work folder, and what was run."""

    def __init__(self, work, fabric, fabricd):
        self.work, self.done, self.faults, self.rows = work, set(), [], []
        self.repository = os.path.join(work, "repository")
        self.prefix = os.path.join(work, "prefix")
        self.copy_repository(fabric, fabricd)
        self.environment = {**os.environ, "PATH": f"{self.prefix}/bin:{os.environ['PATH']}", "FABRICD": fabricd}
        self.environment.pop("FABRIC", None)

    def copy_repository(self, fabric, fabricd):
        """The files that are tracked, with the built programs, so that nothing is proved here."""
        files = subprocess.run(["git", "-C", TOP, "ls-files", "-z"], stdout=subprocess.PIPE, check=True).stdout
        for name in filter(None, files.decode().split("\0")):
            if os.path.exists(os.path.join(TOP, name)):
                path = os.path.join(self.repository, name)
                os.makedirs(os.path.dirname(path), exist_ok=True)
                shutil.copy2(os.path.join(TOP, name), path, follow_symlinks=False)
        for program, name in ((fabric, "fabric"), (fabricd, "fabricd")):
            os.makedirs(f"{self.repository}/crates/{name}/out")
            shutil.copy(program, f"{self.repository}/crates/{name}/out/{name}")

    def fault(self, text, what):
        self.faults.append(text)
        print(f"FAULT: {text}\n  {what}")

    def run(self, text, where, wants="", status=0, give=None, names=None, stdin=None, seconds=900):
        """Runs a command as it is written, but for `names`, and compares status and output. `give` is its input."""
        self.done.add(text)
        command = text
        for name, value in (names or {}).items():
            command = re.sub(rf"(?<![\w]){re.escape(name)}(?![\w])", value, command)
        began = time.monotonic()
        how = {"input": give} if give is not None else {"stdin": stdin or subprocess.DEVNULL}
        try:
            ran = subprocess.run(["bash", "-c", command], cwd=where, env=self.environment, stdout=subprocess.PIPE,
                                 stderr=subprocess.STDOUT, timeout=seconds, **how)
        except subprocess.TimeoutExpired:
            return self.fault(text, f"it did not end within {seconds} s")
        said = ran.stdout.decode(errors="replace")
        if ran.returncode != status or not re.search(wants, said, re.M):
            return self.fault(text, f"status {ran.returncode}, {said[-600:]!r}; wanted {status} and {wants!r}")
        print(f"{time.monotonic() - began:6.1f} s  {text}" + (f"\n          as {command}" if command != text else ""))
        return said

    def begin(self, text, where, output, names=None):
        """Begins a command that runs on, as in a terminal of its own."""
        self.done.add(text)
        command = text
        for name, value in (names or {}).items():
            command = command.replace(name, value)
        return subprocess.Popen(["bash", "-c", command], cwd=where, env=self.environment, stdin=subprocess.DEVNULL,
                                stdout=output, stderr=subprocess.STDOUT, start_new_session=True,
                                preexec_fn=take_interrupts)

    def await_in(self, text, files, wants, seconds=20):
        """Waits until one of the files has a line."""
        def has():
            return any(re.search(wants, read(it), re.M) for it in files)
        if wait_for(has, seconds):
            return True
        self.fault(text, f"no line {wants!r} within {seconds} s: {[read(it)[-300:] for it in files]}")
        return False


def take_interrupts():
    """What a shell has started in the background ignores Ctrl-C, and so would what is started here."""
    signal.signal(signal.SIGINT, signal.SIG_DFL)


def read(path):
    if not os.path.exists(path):
        return ""
    with open(path, encoding="utf-8", errors="replace") as it:
        return it.read()


def stop(process, how=signal.SIGKILL):
    """Ends a command and what it has started: its session has no other processes."""
    if process.poll() is None:
        os.killpg(process.pid, how)
    process.wait()


class ServedCluster(Cluster):
    """Three nodes and three arbitrators whose pages have the addresses of docs/operations.md, with a key."""

    def __init__(self, folder):
        super().__init__(folder, 9500, 3, 3, RING, SERVICE, key=True)

    def options(self, process):
        return [*super().options(process), "--listen", f"127.0.0.1:{self.port + self.offset(process)}"]

    @staticmethod
    def offset(process):
        return process.number + (0 if process.kind == "node" else 80)

    def is_whole(self):
        """All route, node 1 is the manager, and partition 7 has a primary with three copies."""
        states = self.states()
        held = sum(hi - lo + 1 for it in states.values() for lo, hi in it.owns)
        good = len(states) == 3 and held == 1 << 64 and all(it.phase == "routing" for it in states.values())
        return states if good and len(self.copies(7, states)) >= 3 and self.manager(states) else None


def another(cluster, number):
    """A process of a node that begins again in its folder."""
    process = Process(cluster, "node", number)
    cluster.nodes[number - 1] = process
    process.start()
    return process
