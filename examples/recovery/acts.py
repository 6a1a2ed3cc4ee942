"""What the cases do beside starting, stopping and asking: disks, clocks, and a manager without a policy for a partition."""
import json
import os
import resource
import subprocess
import time

from cluster import Cluster, Failed, number_of

FAKETIME = "/usr/lib/x86_64-linux-gnu/faketime/libfaketime.so.1"


class Operated(Cluster):
    """A cluster with what an operator does to a machine."""

    def __exit__(self, *error):
        for name in self.nodes:
            self.unmount(name)
        super().__exit__(*error)

    # A small disk.

    def mount(self, name, size):
        """A small disk as the folder of an actor; False where that is not permitted."""
        os.mkdir(self.path(name), 0o700)
        words = ["mount", "-t", "tmpfs", "-o", "size=%s,mode=700" % size, "tmpfs", name]
        self.typed(words)
        done = subprocess.run([*words[:-1], self.path(name)], stderr=subprocess.DEVNULL)
        if done.returncode:
            self.say("  (not permitted: a limit of the file's size takes its place)")
        return done.returncode == 0

    def enlarge(self, name, size):
        words = ["mount", "-o", "remount,size=%s" % size, name]
        self.typed(words)
        subprocess.run([*words[:-1], self.path(name)], check=True)

    def unmount(self, name):
        if os.path.ismount(self.path(name)):
            if name in self.processes:
                self.processes[name].kill()
                self.processes[name].wait()
            subprocess.run(["umount", self.path(name)], check=True)

    @staticmethod
    def limit_files(size):
        return lambda: resource.setrlimit(resource.RLIMIT_FSIZE, (size, resource.RLIM_INFINITY))

    # Clocks.

    def start_with_clock(self, name, shift, **more):
        if not os.path.exists(FAKETIME):
            raise Failed("the package faketime is not installed")
        shown = ["env", "LD_PRELOAD=" + FAKETIME, "FAKETIME=" + shift, *("%s=%s" % one for one in more.items())]
        self.start(name, before=shown)

    def compare_readings(self, seconds):
        """How far each node's clock goes while so many seconds pass."""
        nodes = self.living()
        before, began = {name: self.state(name)["reading"] for name in nodes}, time.monotonic()
        time.sleep(seconds)
        for name in nodes:
            passed = 1000 * (time.monotonic() - began)
            went = self.state(name)["reading"] - before[name]
            self.say("  %s: its reading went on by %d in %d ms" % (name, went, passed))

    # A manager whose FILE does not declare a partition, so that its policy leaves the partition alone.

    def manage_without(self, node, partition):
        """Starts the node again with a FILE without the partition, and gives it the manager's role."""
        declared = [one for one in self.service["partitions"] if one["partition"] != partition]
        self.write_file("without-%d" % partition, service={**self.service, "partitions": declared})
        self.ask(node, "leave")
        self.status(node)
        self.typed(["sed", "-n", "2p", "without-%d" % partition])
        self.say("  " + json.dumps({**self.service, "partitions": declared}, separators=(",", ":")))
        self.start(node, file="without-%d" % partition)
        self.settle([node])
        manager = self.manager()
        if manager == node:
            return
        self.until("a link", lambda: self.is_linked(manager, node))
        self.ask(manager, "give %d all" % number_of(node))
        self.until("it manages", lambda: self.manager([node]))

    # Planned changes.

    def check(self, file):
        done = subprocess.run([self.program, "check", file], cwd=self.here, capture_output=True, text=True)
        self.say("  " + done.stdout.strip())

    def drain(self, name, others):
        """Moves primaries away by the script `drain`."""
        script = os.path.join(os.path.dirname(os.path.realpath(__file__)), "..", "..", "etc", "drain")
        self.typed(["drain", name, *others])
        if not os.path.exists(self.path("bin")):
            os.mkdir(self.path("bin"))
            os.symlink(self.program, self.path("bin", "fabricd"))
        path = self.path("bin") + os.pathsep + os.environ["PATH"]
        done = subprocess.run([script, name, *others], cwd=self.here, capture_output=True, text=True, env={**os.environ, "PATH": path})
        for line in (done.stdout + done.stderr).splitlines():
            self.say("  " + line)

    def show_health(self, name):
        self.typed(["curl", "-s", "http://127.0.0.1:%d/healthz" % self.page(name)])
        self.say("  " + self.get(name, "/healthz"))

    def is_linked(self, name, other):
        peers = [link["peer"].split(".")[0] for link in self.state(name)["links"] if link["state"] == "bound"]
        return str(number_of(other)) in peers
