"""Planned changes, case by case: a new version, another address, what a changed configuration does."""
from acts import Operated
from cases import SEVEN


def upgrade(program):
    """A new version, one process at a time: nodes leave, arbitrators end. The new program is here the old one."""
    with Operated(program, nodes=3, service=SEVEN) as c:
        c.start_all()
        c.await_members(7, 3)
        for name in c.arbiters:
            c.ask(name, "end")
            c.status(name)
            c.start(name)
        for name in c.nodes:
            others = [one for one in c.nodes if one != name]
            c.drain(name, others)
            c.ask(name, "leave")
            c.status(name)
            c.await_whole(others)
            c.start(name)
            c.settle([name])
            c.show_health(name)
            c.await_members(7, 3)
        c.await_whole()
        c.write(7, "all have the new version")


def address(program):
    """Node 3 gets another address. All others must read the FILE with it before node 3 is started again."""
    with Operated(program, nodes=3, service=SEVEN) as c:
        c.start_all()
        c.await_members(7, 3)
        c.ask("node-3", "leave")
        c.status("node-3")
        changed = c.configuration()
        changed["nodes"][2]["at"] = "127.0.0.1:%d" % (c.port + 70)
        c.write_file("moved", configuration=changed)
        c.typed(["fabricd", "check", "cluster"])
        c.check("cluster")
        c.typed(["fabricd", "check", "moved"])
        c.check("moved")
        for name in c.arbiters:
            c.ask(name, "end")
            c.status(name)
            c.start(name, file="moved")
        for name, other in (("node-2", "node-1"), ("node-1", "node-2")):
            c.ask(name, "leave")
            c.status(name)
            c.await_whole([other])
            c.start(name, file="moved")
            c.settle([name])
            c.until("it owns a part", lambda: c.state(name)["owns"])
        c.start("node-3", file="moved")
        c.settle(["node-3"])
        c.await_members(7, 3)
        c.await_whole()


def other_lease(program):
    """Another lease, or a further node, is another configuration: no folder takes it."""
    with Operated(program, nodes=3, service=SEVEN) as c:
        c.start_all()
        c.ask("node-3", "leave")
        c.status("node-3")
        c.write_file("longer", configuration={**c.configuration(), "lease": 3000})
        c.typed(["fabricd", "check", "longer"])
        c.check("longer")
        c.start("node-3", file="longer")
        c.status("node-3")
        more = c.configuration()
        more["nodes"].append({"node": 4, "point": "2" * 16, "domain": 4, "at": "127.0.0.1:%d" % (c.port + 4)})
        c.write_file("more", configuration=more)
        c.start("node-3", file="more")
        c.status("node-3")
        c.start("node-3")
        c.settle(["node-3"])


CHANGES = {"upgrade": upgrade, "address": address, "other-lease": other_lease}
