"""Recovery, case by case. docs/recovery.md has what each of them printed."""
import os
import subprocess
import time

from acts import Operated
from cluster import Failed

SEVEN = {"partitions": [{"partition": 7, "replicas": 3}], "heal_after": 3000}


def node_disk(program):
    """The disk of a node is lost. Node 4 is a spare: it is in the configuration, and has never run."""
    with Operated(program, nodes=4, service=SEVEN) as c:
        c.start_all([*c.arbiters, "node-1", "node-2", "node-3"])
        c.await_members(7, 3)
        c.write(7, "before the loss")
        c.mark()
        c.signal("KILL", "node-3")
        c.remove("node-3")
        del c.processes["node-3"]
        c.saw("tookover 3.1")
        c.start("node-4")
        c.saw("took ", ["node-4"])
        c.await_members(7, 3)
        c.await_whole()
        c.write(7, "after the loss")
        c.ask(c.primary(7), "log 7 1 10")


def arbiter_disk(program):
    """The disk of one of three arbitrators is lost. The two others are still a majority, and both are needed now."""
    with Operated(program, nodes=3, service=SEVEN) as c:
        c.start_all()
        c.await_members(7, 3)
        c.signal("KILL", "arbiter-3")
        c.remove("arbiter-3")
        del c.processes["arbiter-3"]
        c.write(7, "two arbitrators are left")
        c.mark()
        c.signal("KILL", "node-2")
        c.saw("tookover 2.1")
        c.start("node-2")
        c.await_members(7, 3)
        c.await_whole()


def arbiters_back(program):
    """Two of three arbitrators are down, and nothing else fails. They come back with their folders."""
    with Operated(program, nodes=3, service=SEVEN) as c:
        c.start_all()
        c.await_members(7, 3)
        c.signal("KILL", "arbiter-2", "arbiter-3")
        c.write(7, "no majority of arbitrators")
        manager = c.manager()
        c.mark()
        asked = subprocess.Popen([program, "ask", manager, "heal 7 3"], cwd=c.here, stdout=subprocess.PIPE, text=True)
        c.typed(["fabricd", "ask", manager, "heal 7 3"])
        time.sleep(5)
        c.show(manager, "reconfiguration_seconds")
        c.ask(manager, "state", only="changing|open")
        c.start("arbiter-2")
        for line in asked.communicate()[0].splitlines():
            c.say("  " + line)
        c.write(7, "a majority again")


def arbiters_lost(program):
    """Two of three arbitrators are down, and then a node dies. Its peers leave at their fences: the ring is gone."""
    with Operated(program, nodes=3, service=SEVEN) as c:
        c.start_all()
        c.await_members(7, 3)
        c.signal("KILL", "arbiter-2", "arbiter-3")
        c.mark()
        c.signal("KILL", "node-3")
        c.saw("accused 3.1", ["node-1"])
        c.saw("left fence", ["node-1"])
        c.saw("begin 1.2", ["node-1"])
        c.saw("left fence", ["node-2"])
        c.start("arbiter-2")
        c.start("node-3")
        time.sleep(10)
        for name in c.living():
            c.ask(name, "state", only="^node|^owns")


def partition_majority(program):
    """Two of the three members of a partition are lost for good. Only `lose` gives it a primary again."""
    with Operated(program, nodes=5, near=4, service={**SEVEN, "heal_after": 8000}) as c:
        c.start_all()
        c.await_members(7, 3)
        c.write(7, "an entry of all three")
        members, manager = c.members(7), c.manager()
        kept = [name for name in members if name == manager] or members[:1]
        for name in members:
            if name not in kept:
                c.signal("KILL", name)
                c.remove(name)
                del c.processes[name]
        survivor = kept[0]
        c.until("a manager", lambda: c.manager(), 60)
        manager = c.manager()
        c.say("the survivor of partition 7 is %s, and the manager is %s" % (survivor, manager))
        c.saw("cannot heal 7", [manager], say=True)
        c.show(manager, "reconfiguration_seconds")
        c.ask(manager, "lose 7 %s" % survivor.split("-")[1])
        other = [name for name in c.living() if name not in (manager, survivor)][0]
        c.manage_without(other, 7)
        c.ask(other, "lose 7 %s" % survivor.split("-")[1])
        c.ask(other, "heal 7 3")
        c.await_members(7, 3)
        c.write(7, "in a new history")
        c.ask(c.primary(7), "log 7 1 10")


def bad_record(program):
    """A byte of a node's file of records is not what was written."""
    with Operated(program, nodes=3, service=SEVEN) as c:
        c.start_all()
        c.await_members(7, 3)
        c.write(7, "an entry")
        c.ask("node-2", "end")
        c.status("node-2")
        path = c.path("node-2", "kept", "2")
        with open(path, "r+b") as file:
            good = file.read()
            file.seek(2)
            file.write(b"\xff")
        c.start("node-2")
        c.status("node-2")
        c.say("the byte is put right again")
        with open(path, "wb") as file:
            file.write(good)
        c.start("node-2")
        c.settle(["node-2"])
        c.await_members(7, 3)
        c.say("a torn end: a machine stopped while a record was written, so the file ends with a part of it")
        c.ask("node-2", "end")
        c.status("node-2")
        with open(path, "ab") as file:
            file.write(b"\x00\x20\x07")
        c.start("node-2")
        c.settle(["node-2"])


def full_disk(program):
    """The disk of a node is full. It ends, and begins again once there is room."""
    with Operated(program, nodes=3, service=SEVEN) as c:
        mounted = c.mount("node-2", "64k")
        c.start_all([*c.arbiters, "node-1"])
        limited = {} if mounted else {"restore_signals": False, "preexec_fn": c.limit_files(40_000)}
        c.start("node-2", **limited)
        c.start("node-3")
        c.settle(c.nodes)
        c.await_members(7, 3)
        entries = 0
        while not c.has_ended("node-2"):
            at = c.primary(7, ["node-1", "node-3", "node-2"])
            if at:
                c.ask(at, *["write 7 %s" % ("x" * 500)] * 10, say=False)
                entries += 10
            if entries > 5000:
                raise Failed("the disk does not fill")
        c.say("after some %d entries of 500 bytes" % entries)
        c.status("node-2")
        c.write(7, "two of three members", ["node-1", "node-3"])
        if mounted:
            c.enlarge("node-2", "1m")
        else:
            c.say("the limit of the file's size is taken away")
        c.start("node-2")
        c.settle(["node-2"])
        c.await_members(7, 3)


def clock(program):
    """The clock of a node runs at half its pace. Nothing in the fabric sees that; the readings show it."""
    with Operated(program, nodes=3, service=SEVEN) as c:
        c.start_all([*c.arbiters, "node-1", "node-3"])
        c.start_with_clock("node-2", "+0 x0.5")
        c.settle(["node-2"])
        c.compare_readings(10)
        c.say("end it before anything else, so that nothing rests on its leases")
        c.mark()
        c.signal("KILL", "node-2")
        c.saw("tookover 2.1")
        c.start("node-2")
        c.settle(["node-2"])
        c.compare_readings(10)


def time_of_day(program):
    """The time of day of a machine is set back by an hour. Only the log's times change."""
    with Operated(program, nodes=2) as c:
        c.start_all([*c.arbiters, "node-1"])
        c.start_with_clock("node-2", "-1h", FAKETIME_DONT_FAKE_MONOTONIC="1")
        c.settle(["node-2"])
        c.compare_readings(5)
        c.say("the first line of its log: " + c.log("node-2", whole=True)[0])
        c.say("that of node-1:            " + c.log("node-1", whole=True)[0])


def room(program):
    """One of three rooms stops: two of six nodes and one of three arbitrators. It goes on after a while."""
    rooms = {1: 1, 2: 1, 3: 2, 4: 2, 5: 3, 6: 3}
    with Operated(program, nodes=6, rooms=rooms, service=SEVEN) as c:
        c.start_all()
        c.await_members(7, 3)
        c.write(7, "three rooms")
        gone, others = ["node-5", "node-6"], ["node-1", "node-2", "node-3", "node-4"]
        c.mark()
        c.signal("STOP", *gone, "arbiter-3")
        c.write(7, "two rooms", others)
        c.await_whole(others)
        c.mark()
        c.signal("CONT", *gone, "arbiter-3")
        c.saw("left fence", gone)
        c.saw("begin 5.2", gone)
        c.saw("begin 6.2", gone)
        c.settle(gone)
        c.await_members(7, 3)
        c.await_whole()
        c.write(7, "three rooms again")


def rooms_halved(program):
    """One of two rooms stops, and has two of three arbitrators. The other room has no majority, and gives up its ring."""
    with Operated(program, nodes=4, rooms={1: 1, 2: 1, 3: 2, 4: 2}, service=SEVEN) as c:
        c.start_all()
        c.until("partition 7 has a primary", lambda: c.primary(7))
        c.mark()
        gone = ["node-3", "node-4", "arbiter-2", "arbiter-3"]
        c.signal("STOP", *gone)
        c.saw("left fence", ["node-1", "node-2"])
        c.saw("left fence", ["node-1"], say=False)
        c.saw("left fence", ["node-2"], say=False)
        c.signal("CONT", *gone)
        time.sleep(15)
        for name in c.nodes:
            c.ask(name, "state", only="^node|^owns")


CASES = {
    "node-disk": node_disk,
    "arbiter-disk": arbiter_disk,
    "arbiters-back": arbiters_back,
    "arbiters-lost": arbiters_lost,
    "partition-majority": partition_majority,
    "bad-record": bad_record,
    "full-disk": full_disk,
    "clock": clock,
    "time-of-day": time_of_day,
    "room": room,
    "rooms-halved": rooms_halved,
}
