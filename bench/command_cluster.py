"""The commands of the pages that need a cluster of `fabricd`, in the order of a cluster's life."""
import os
import shutil
import signal

from command_scenes import WHOLE, ServedCluster, another, read, stop
from serving import Asked, wait_for


class Life:
    """A cluster in a folder in which /var/lib/fabricd and /etc/fabricd are, and a folder FOLDER: that of node 1."""

    def __init__(self, bench):
        self.bench, self.at = bench, os.path.join(bench.work, "c")
        os.makedirs(self.at)
        self.cluster = ServedCluster(self.at)
        os.symlink("node-1", f"{self.at}/FOLDER")
        os.symlink("cluster", f"{self.at}/FILE")
        self.names = {"/var/lib/fabricd": self.at, "/etc/fabricd": self.at, "/usr/lib/fabricd": f"{bench.prefix}/lib/fabricd",
                      "P": "7", "TEXT": "hello", "N": "3"}

    def run(self, text, wants="", status=0, **more):
        return self.bench.run(text, self.at, wants, status, names={**self.names, **more})

    def is_whole(self, what, manager=None):
        def holds():
            states = self.cluster.is_whole()
            node = self.cluster.manager(states) if states else None
            return node is not None and (manager is None or node.number == manager)
        if not wait_for(holds, 40):
            states = {n: vars(it) for n, it in self.cluster.states().items()}
            self.bench.fault(what, f"the cluster is not whole after 40 s: {states}")

    def primary_is(self, number):
        """Moves the role of the primary, so that the next command has its premise."""
        node = wait_for(lambda: self.cluster.primary(7), 20)
        if node and node.number != number:
            self.cluster.manager().ask(f"swap 7 {number}")

    def manager_is(self, number):
        manager = wait_for(self.cluster.manager, 20)
        if manager and manager.number != number:
            manager.ask(f"give {number} all")
            wait_for(lambda: self.cluster.manager() and self.cluster.manager().number == number, 20)

    def begin_again(self, number):
        another(self.cluster, number)
        self.is_whole(f"node {number} begins again")


def living(life):
    """What is asked of a cluster that runs."""
    life.bench.run("bin/same-configuration 127.0.0.1:9601 127.0.0.1:9602 127.0.0.1:9681", life.bench.repository,
                   "^one configuration$")
    life.primary_is(1)
    life.run("fabricd ask FOLDER state", "^@1 replica 7 .* primary ")
    life.run('fabricd ask FOLDER "write P TEXT"', "committed 7 ")
    life.run('fabricd ask FOLDER "log P 1 64"', "^@1 entry 7 .* 1 68656c6c6f$")
    life.run('fabricd ask /var/lib/fabricd/node-1 state "swap 7 2"', "configured 7 ")
    life.run('fabricd ask node-1 "give N all"', "^done 1$")
    life.is_whole("give N all", manager=3)
    life.cluster.nodes[2].ask("give 1 near")
    life.manager_is(1)
    life.primary_is(1)
    life.run("etc/drain -r 3 FOLDER [OTHER]..", "^node 1 leads no partition$",
             **{"etc/drain": f"{life.bench.repository}/etc/drain", "[OTHER]..": "node-2 node-3"})


def leaving(life):
    """A node that leaves well, and one that its supervisor asks to leave."""
    life.manager_is(1)
    life.primary_is(1)
    life.run("/usr/lib/fabricd/drain /var/lib/fabricd/node-1 /var/lib/fabricd/node-2", "^node 1 leads no partition$")
    life.run("fabricd ask /var/lib/fabricd/node-1 leave", "^done 1$")
    gone = life.cluster.nodes[0].process
    if gone.wait(10) != 0:
        life.bench.fault("leave", f"node 1 ends with status {gone.returncode}")
    text = "fabricd-run node 1 /etc/fabricd/cluster --folder /var/lib/fabricd/node-1 --page 127.0.0.1:9600"
    with open(f"{life.at}/run.log", "wb") as log:
        begun = life.bench.begin(f"{text} --key {life.cluster.key}", life.at, log, life.names)
        life.bench.done.discard(f"{text} --key {life.cluster.key}")
        life.bench.done.add(text)
        try:
            if life.bench.await_in(text, [f"{life.at}/run.log"], " own [0-9a-f]"):
                os.kill(begun.pid, signal.SIGTERM)
                status = begun.wait(20)
                print(f"          {text}\n            joins, and leaves at TERM with status {status}")
                if status != 0:
                    life.bench.fault(text, f"status {status} after TERM: {read(f'{life.at}/run.log')[-300:]}")
        finally:
            stop(begun)
    life.begin_again(1)


def power_cut(life):
    """All processes end, and the ring begins again by the line that `again` writes."""
    life.cluster.end()
    life.bench.run("pgrep fabricd; true", life.at)
    life.bench.done.discard("pgrep fabricd; true")
    life.bench.done.add("pgrep fabricd")
    for actor in life.cluster.all():
        shutil.copytree(actor.folder, f"{life.at}/ring/{actor.name}", ignore=shutil.ignore_patterns("door"))
    life.run("fabricd again FILE ring/* >line")
    life.run("{ head -n 1 FILE; cat line; } >new")
    life.run("fabricd check new", "^good [0-9a-f]{64}$")
    folders = "node-1 node-2 node-3 arbiter-1 arbiter-2 arbiter-3"
    life.run(f"fabricd again cluster {folders} >line")
    life.run("{ head -n 1 cluster; cat line; } >cluster.new")
    if read(f"{life.at}/new") != read(f"{life.at}/cluster.new"):
        life.bench.fault("fabricd again", "copies of the folders and the folders lead to two lines")
    os.replace(f"{life.at}/cluster.new", life.cluster.file)
    life.cluster.start()
    life.is_whole("the ring begins again")
    began = [it.name for it in life.cluster.nodes if f" own {WHOLE} -" in read(it.log).rpartition(" begin ")[2]]
    said = " ".join(life.cluster.primary(7).ask("log 7 1 64"))
    if len(began) != 1 or " 1 68656c6c6f" not in said:
        life.bench.fault("fabricd again", f"nodes that begin with the ring: {began}; the log of 7: {said}")
    else:
        print(f"          {began[0]} begins with the whole ring, and partition 7 has its entry")


def cluster(bench):
    """A cluster's life."""
    life = Life(bench)
    try:
        life.cluster.start()
        life.is_whole("the cluster starts")
        for part in (living, leaving, power_cut):
            part(life)
        logs = [f"{life.at}/node-{n}.log" for n in (1, 2)]
        bench.run("bin/draw node-1.log node-2.log >cluster.svg", bench.repository,
                  names={"node-1.log": logs[0], "node-2.log": logs[1]})
    except Asked as error:
        bench.fault("a cluster of fabricd", f"a process does not answer: {error}")
    finally:
        life.cluster.end()
