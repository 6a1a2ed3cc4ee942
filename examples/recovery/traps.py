"""What waits for ever until somebody ends it, case by case. docs/traps.md has what each of them printed."""
import subprocess
import time

from acts import Operated
from cases import SEVEN
from cluster import number_of


def dead_primary_swap(program):
    """A swap whose old primary is down waits in its first phase, and the policy can do nothing for the partition."""
    with Operated(program, nodes=4, near=4, service=SEVEN) as c:
        c.start_all()
        c.await_members(7, 3)
        c.write(7, "before the swap")
        manager, old = c.manager(), c.primary(7)
        if manager == old:
            other = [name for name in c.members(7) if name != manager][0]
            c.ask(manager, "swap 7 %d" % number_of(other))
            old = other
            c.until("it is the primary", lambda: c.primary(7) == old)
        new = [name for name in c.members(7) if name != old][0]
        c.signal("KILL", old)
        words = ["fabricd", "ask", manager, "swap 7 %d" % number_of(new)]
        c.typed(words)
        asked = subprocess.Popen([program, *words[1:]], cwd=c.here, stdout=subprocess.PIPE, text=True)
        c.mark()
        c.saw("cannot heal 7", [manager])
        c.show(manager, "reconfiguration_seconds")
        c.ask(manager, "heal 7 3")
        heir = [name for name in c.living() if name != manager and c.is_linked(manager, name)][0]
        c.ask(manager, "give %d all" % number_of(heir))
        c.await_members(7, 3)
        c.write(7, "after the swap was overtaken")
        c.say("the swap was answered: " + "; ".join(asked.communicate()[0].split("\n")[:2]))


def dead_primary_back(program):
    """The same, ended by a start of the old primary: it promises, and the swap goes on."""
    with Operated(program, nodes=4, near=4, service=SEVEN) as c:
        c.start_all()
        c.await_members(7, 3)
        manager, old = c.manager(), c.primary(7)
        if manager == old:
            other = [name for name in c.members(7) if name != manager][0]
            c.ask(manager, "swap 7 %d" % number_of(other))
            old = other
            c.until("it is the primary", lambda: c.primary(7) == old)
        new = [name for name in c.members(7) if name != old][0]
        c.signal("KILL", old)
        words = ["fabricd", "ask", manager, "swap 7 %d" % number_of(new)]
        c.typed(words)
        asked = subprocess.Popen([program, *words[1:]], cwd=c.here, stdout=subprocess.PIPE, text=True)
        time.sleep(5)
        c.show(manager, "reconfiguration_seconds")
        c.start(old)
        for line in asked.communicate()[0].splitlines():
            c.say("  " + line)


def manager_restarts(program):
    """The manager is killed in the middle of many heals. Its reconfigurations are forgotten; the next manager learns."""
    partitions = [{"partition": p, "replicas": 3} for p in range(1, 9)]
    with Operated(program, nodes=4, near=4, service={**SEVEN, "partitions": partitions}) as c:
        c.start_all()
        for partition in range(1, 9):
            c.await_members(partition, 3)
        manager = c.manager()
        c.ask(manager, *["heal %d 3" % p for p in range(1, 5)], say=False)
        words = ["fabricd", "ask", manager, *["heal %d 3" % p for p in range(1, 9)]]
        c.typed(words)
        asked = subprocess.Popen([program, *words[1:]], cwd=c.here, stdout=subprocess.DEVNULL)
        time.sleep(0.02)
        c.signal("KILL", manager)
        asked.wait()
        others = c.living()
        c.until("another manager", lambda: c.manager(others))
        c.say("the manager is now %s" % c.manager(others))
        for partition in range(1, 9):
            c.await_members(partition, 3, others)


def lone_node(program):
    """Two nodes, and one of them dies before the other one is in the ring again: nobody holds the ring."""
    with Operated(program, nodes=2, service={"heal_after": 3000}) as c:
        c.start_all([*c.arbiters, "node-1"])
        c.signal("KILL", "node-1")
        c.start("node-1")
        c.start("node-2")
        time.sleep(10)
        for name in c.nodes:
            c.ask(name, "state", only="^node|^owns")
        c.show("node-2", "routing", "ring_share", "without_manager")


TRAPS = {
    "dead-primary-swap": dead_primary_swap,
    "dead-primary-back": dead_primary_back,
    "manager-restarts": manager_restarts,
    "lone-node": lone_node,
}
