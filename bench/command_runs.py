"""The commands of the pages, scene by scene, with what each must print."""
import os
import pty
import re
import shutil
import signal
import subprocess
import threading
import time

from command_cluster import cluster
from command_scenes import read, stop
from serving import wait_for

FILTERED = "fabric node 1 20000 <node1.plan | grep -v --line-buffered ' own ' >>node1.log"
CHANGED = (
    "fabric node 1 20000 <node1.plan | awk '$5 != \"own\" { print; fflush(); next } "
    "$6 != last[$3] { last[$3] = $6; print; fflush() }' >>node1.log"
)


def install(bench):
    """First of all: the other scenes use what is installed."""
    bench.run("bin/install PREFIX", bench.repository, "installed", names={"PREFIX": bench.prefix})
    bench.environment["PATH"] = f"{bench.prefix}/bin:{os.environ['PATH']}"


def reports(bench):
    """Schedules, reports and pictures in the repository."""
    at = bench.repository
    wanted = read(f"{at}/examples/join.report")
    said = bench.run("bin/fabric replay < examples/join.schedule", at)
    if said is not None and said != wanted:
        bench.fault("bin/fabric replay < examples/join.schedule", "its report is not examples/join.report")
    bench.run("bin/fabric replay <examples/heal.schedule | bin/draw >heal.svg", at)
    bench.run("bin/draw 4000 8200 <examples/heal.report >late.svg", at)
    bench.run("bin/draw --help", at, "usage")
    if read(f"{at}/heal.svg") != read(f"{at}/examples/pictures/heal.svg"):
        bench.fault("bin/draw >heal.svg", "it is not the picture in examples/pictures")
    bench.run("fabric generate 7 8 500 >drill.schedule", at)
    bench.run("fabric replay <drill.schedule", at, "^end ")
    bench.run("fabric trace <drill.schedule | fabric audit", at, "^safe 15647$")
    bench.run("set -o pipefail", at)


def files(bench):
    """The forms of the program, on files of these names."""
    at, examples = os.path.join(bench.work, "files"), f"{bench.repository}/examples"
    os.makedirs(at)
    for name, source in (("schedule", "partition.schedule"), ("transcript", "two-holders.transcript"),
                         ("my.schedule", "join.schedule"), ("cluster.plan", "running/cluster.plan")):
        shutil.copy(f"{examples}/{source}", f"{at}/{name}")
    bench.run("fabric writes <schedule", at, f"\\A{re.escape(read(f'{examples}/partition.writes'))}\\Z")
    bench.run("fabric audit <transcript", at, "^breach 5 ring 7000000000000000 1.1 2.1$")
    bench.run("fabric trace <schedule", at, "^transcript 0$")
    numbers = {"S": "7", "N": "8", "R": "500"}
    bench.run("fabric generate S N R", at, "^tick ", names=numbers)
    bench.run("fabric drill S N R", at, "^held 4$", names=numbers)
    bench.run("fabric replay <my.schedule >/dev/null && echo good", at, "^good$")
    bench.run("fabric node 1 9", at, "^fault config not json$", status=5)
    for text, plan in (("fabric node N T", "node1"), ("fabric arbiter A T", "arbiter"), ("fabric cluster T", "cluster")):
        with open(f"{examples}/running/{plan}.plan", "rb") as it:
            bench.run(text, at, "^end 50$", names={"N": "1", "A": "1", "T": "50"}, give=it.read())


class Terminal:
    """A command in a terminal: what it prints is kept."""

    def __init__(self, bench, text):
        self.bench, self.text, self.said = bench, text, ""
        mine, its = pty.openpty()
        self.process = bench.begin(text, bench.repository, its)
        os.close(its)
        threading.Thread(target=self.keep, args=(mine,), daemon=True).start()

    def keep(self, end):
        try:
            while piece := os.read(end, 65_536):
                self.said += piece.decode(errors="replace")
        except OSError:
            os.close(end)

    def awaits(self, wants, seconds=20):
        if not wait_for(lambda: re.search(wants, self.said), seconds):
            self.bench.fault(self.text, f"no {wants!r} within {seconds} s: {self.said[-300:]!r}")
        else:
            print(f"          {self.text}\n            says {wants!r}")


def readme_cluster(bench):
    """Three terminals in the repository, as README has them, and one process with all actors after them."""
    begun = [Terminal(bench, "bin/fabric arbiter 1 20000 < examples/running/arbiter.plan")]
    first = "bin/fabric node 1 20000 < examples/running/node1.plan | grep -v ' own '"
    second = "bin/fabric node 2 20000 < examples/running/node2.plan | grep -v ' own '"
    try:
        begun += [one := Terminal(bench, first), two := Terminal(bench, second)]
        two.awaits(r"2\.1 \d+ took 1\.1 1 ")
        os.killpg(two.process.pid, signal.SIGINT)
        for words in (r"accused 2\.1", r"heir 2\.1", r"tookover 2\.1"):
            one.awaits(words, 5)
        begun.append(two := Terminal(bench, second))
        two.awaits(r"2\.2 \d+ took 1\.1 ")
    finally:
        for it in begun:
            stop(it.process)
    shutil.rmtree(f"{bench.repository}/kept")
    whole = Terminal(bench, "bin/fabric cluster 20000 < examples/running/cluster.plan")
    try:
        whole.awaits(r"2\.1 \d+ took 1\.1 1 ")
    finally:
        stop(whole.process)
    shutil.rmtree(f"{bench.repository}/kept")


def filters(bench):
    """Node 1 with each filter of docs/operations.md, beside an arbitrator and node 2; then the picture of both logs."""
    plans = f"{bench.repository}/examples/running"
    manual = "fabric node 1 20000 <examples/running/node1.plan | grep -v ' own '"
    for text, counts in ((FILTERED, {0}), (CHANGED, {1, 2, 3, 4}), (manual, {0})):
        at = os.path.join(bench.work, f"filter-{len(bench.done)}")
        for name in ("arbiter", "node1", "node2"):
            os.makedirs(f"{at}/{name}")
            shutil.copy(f"{plans}/{name}.plan", f"{at}/{name}.plan")
        shutil.copytree(plans, f"{at}/examples/running")
        begun = []
        with open(f"{at}/node2.log", "wb") as log, open(f"{at}/node1.said", "wb") as said:
            try:
                begun.append(bench.begin("fabric arbiter 1 20000 <../arbiter.plan", f"{at}/arbiter", subprocess.DEVNULL))
                begun.append(bench.begin(text, at, said))
                begun.append(bench.begin("fabric node 2 20000 <../node2.plan", f"{at}/node2", log))
                bench.await_in(text, [f"{at}/node2.log"], "took 1.1 1")
                time.sleep(1)
                if text == manual:
                    subprocess.run(["pkill", "-s", str(begun[1].pid), "-x", "fabric"])
                    begun[1].wait(10)
                lines = (read(f"{at}/node1.log") + read(f"{at}/node1.said")).splitlines()
                own = sum(" own " in it for it in lines)
                if own not in counts or not any(" gave 2.1 1 " in it for it in lines):
                    bench.fault(text, f"{own} lines own of {len(lines)}: {lines[:5]}")
                else:
                    print(f"          {text}\n            {len(lines)} lines, {own} own")
            finally:
                for it in begun:
                    stop(it)
        if text == CHANGED:
            for name in ("node1.log", "node2.log"):
                shutil.copy(f"{at}/{name}", bench.repository)
    bench.done -= {"fabric arbiter 1 20000 <../arbiter.plan", "fabric node 2 20000 <../node2.plan"}
    bench.run("bin/draw node1.log node2.log >cluster.svg", bench.repository)


# Scripts that take minutes, each with the values of its words in capitals.
SCRIPTS = {
    "bin/try replay < examples/join.schedule": ("^end 22 14$", {}),
    "bin/package FOLDER": (r"\.deb", {"FOLDER": "packages"}),
    "bench/syncs FOLDER": ("", {"FOLDER": "syncs"}),
    "bench/records PROGRAM": ("", {"PROGRAM": "crates/fabricd/out/fabricd"}),
    "bench/sizing PROGRAM": ("", {"PROGRAM": "crates/fabricd/out/fabricd"}),
    "bench/one_process PROGRAM": ("", {"PROGRAM": "crates/fabric/out/fabric"}),
    "examples/cluster/run --page": ("", {}),
    "examples/recovery/run PROGRAM CASE": ("", {"PROGRAM": "crates/fabricd/out/fabricd", "CASE": "node-disk"}),
    "examples/recovery/run --pages PROGRAM": ("", {"PROGRAM": "crates/fabricd/out/fabricd"}),
}


def run_scripts(bench):
    os.makedirs(f"{bench.repository}/syncs", exist_ok=True)
    for text, (wants, names) in SCRIPTS.items():
        bench.run(text, bench.repository, wants, names=names, seconds=1800)


SCENES = (install, reports, files, readme_cluster, filters, cluster)
