"""The rows of docs/service.md about a process that runs: its door and its answers."""
import os
import re
import socket
import time

from door_client import Client, started

HEAD = r"^@1 \d+ - 1\.1 \d+ "


def door_of(rows):
    """The door: grammar, limits, order of the tests of a line."""
    with started(program=rows.program) as c:
        path = c.path("node-1")
        rows.same("the mode of the door", os.stat(path + "/door").st_mode & 0o7777, 0o600)
        client = Client(path)
        for line, tag, fault in (
            ("x", "-", "line"), ("", "-", "line"), ("# x", "-", "line"), ("state", "-", "line"), ("@1", "-", "line"), ("@1 ", "1", "line"),
            ("@1 x", "1", "line"), ("@01 state", "-", "line"), ("@4294967296 state", "-", "line"), ("@4294967295 x", "4294967295", "line"),
            ("@ state", "-", "line"), ("@1  state", "1", "line"), ("@1 state ", "1", "line"), ("@1 state\r", "1", "line"), ("@1 State", "1", "line"),
            ("@1 log 7 0 1", "1", "line"), ("@1 log 7 1 0", "1", "line"), ("@1 log 7 1 65", "1", "line"), ("@1 log 7 100001 1", "1", "line"),
            ("@1 log 65536 1 1", "1", "line"), ("@1 hold 0000000000000000", "1", "line"), ("@1 lead 7", "1", "line"), ("done 1", "-", "line"),
            ("@1 write 7 " + "x" * 513, "1", "line"), ("@1 create 7 8", "1", "line"), ("@1 link 2", "1", "nosuch"), ("@1 link 1", "1", "nosuch"),
            ("@1 swap 7 2", "1", "nosuch"), ("@1 link 1000", "1", "line"), ("@1 " + "x" * 4093, "1", "line"), ("@1 " + "x" * 4094, "-", "large"),
            ("@1 watch ALL", "1", "line"), ("@1 do 1 units 0000000000000000-ffffffffffffffff", "1", "line"),
        ):
            client.send(line + "\n")
            rows.same("line %r" % line[:40], client.answer(tag), ["@%s fault %s" % (tag, fault), "done %s" % tag])
        client.send(b"\xff\x00\n")
        rows.same("bytes", client.answer("-"), ["@- fault line", "done -"])
        said = client.asked("state", 0)
        rows.same("state", [line.split()[1] for line in said[:-1]], ["node", "owns", "up", "open", "watchers"])
        rows.same("the node's line", said[0], re.compile(r"^@0 node 1\.1 routing \d+ -$"))
        rows.same("owns", said[1], "@0 owns 0000000000000000-ffffffffffffffff")
        rows.same("up", said[2], "@0 up 1")
        client.send("@5 state\n@5 state\n")
        rows.same("two equal tags are two answers", [len(client.answer(5)) for _ in range(2)], [6, 6])
        for request, words in (
            ("units 0000000000000000-ffffffffffffffff", "units -"), ("find 0000000000000000", "found 0000000000000000 1.1"), ("heal 7 3", None),
            ("write 7 x", "refused write notprimary"), ("resolve 7 a", "refused resolve notprimary"),
        ):
            said = client.asked(request)
            if words:
                rows.same(request, said[0], re.compile(HEAD + words + "$"))
        rows.same("heal of no partition", client.asked("heal 7 1")[0], re.compile(HEAD + "refused heal nounit$"))
        rows.same("create", client.asked("create 7 1")[0], re.compile(HEAD + r"configured 7 0\.1$"))
        rows.same("create again", client.asked("create 7 1")[0], re.compile(HEAD + "refused create exists$"))
        rows.same("too few", client.asked("heal 7 3")[0], re.compile(HEAD + "refused heal toofew 1$"))
        said = client.asked("write 7 set a 1")
        rows.same("write", [line.split(" ", 5)[5] if line[0] == "@" else line for line in said], ["accepted 7 0.1 1", "committed 7 0.1 1", "done 1"])
        rows.same("resolve", client.asked("resolve 7 a")[0], re.compile(HEAD + "resolved 7 a 1$"))
        rows.same("log", client.asked("log 7 1 64"), ["@1 entry 7 0.1 1 73657420612031", "done 1"])
        rows.same("log behind the end", client.asked("log 7 2 64"), ["done 1"])
        rows.same("log of another partition", client.asked("log 8 1 64"), ["done 1"])
        rows.same("watch", client.asked("watch"), ["done 1"])
        client.send("@3 write 7 b\n")
        said = client.answer(3)
        rows.same("a watched write", [re.sub(r"\d+ - 1\.1 \d+ ", "", line) for line in said], [
            "accepted 7 0.1 2", "committed 7 0.1 2", "@3 accepted 7 0.1 2", "@3 committed 7 0.1 2", "done 3"])
        half = Client(path)
        half.send("@1 state")
        time.sleep(0.3)
        half.socket.shutdown(socket.SHUT_WR)
        rows.same("half a line at the end is dropped", half.line(), "")
        half = Client(path)
        half.send("@1 state\n")
        half.socket.shutdown(socket.SHUT_WR)
        rows.same("a client that closes its side gets its answer", half.answer()[-1], "done 1")
        rows.same("and is gone then", half.line(), "")
        several = Client(path)
        several.send("".join("@%d state\n" % tag for tag in range(100)))
        rows.same("100 lines at once", [several.answer(tag)[-1] for tag in range(100)], ["done %d" % tag for tag in range(100)])


def limits_of(rows):
    """Limits of the door: clients, open answers, bytes that wait; and answers that end late or unknown."""
    with started(program=rows.program) as c:
        path = c.path("node-1")
        c.signal("KILL", "arbiter-1")
        client = Client(path)
        client.send("".join("@%d create %d 1\n" % (n, n) for n in range(257)))
        rows.same("the 257th open answer", client.answer(256), ["@256 fault busy", "done 256"])
        rows.same("a line that needs no place", client.asked("state", 300)[0].split()[1], "node")
        rows.same("open", [line for line in client.asked("state", 300) if " open " in line], ["@300 open 256"])
        rows.same("open on the page", c.state("node-1")["open"], 256)
        began = time.monotonic()
        other = Client(path)
        rows.same("busy: of another reason", other.asked("create 1 1")[0], "@1 fault busy")
        client.socket.settimeout(70)
        said = client.answer(0)
        rows.same("late", said, ["@0 late", "done 0"])
        rows.same("late after 60 s", 59 < time.monotonic() - began < 62, True)
        client.socket.close()
    with started(program=rows.program) as c:
        path = c.path("node-1")
        clients = [Client(path) for _ in range(64)]
        rows.same("64 clients", [one.asked("state")[-1] for one in clients], ["done 1"] * 64)
        rows.same("the 65th is closed", Client(path).line(), "")
        rows.same("64 watch", [one.asked("watch all")[-1] for one in clients], ["done 1"] * 64)
        clients[5].socket.close()
        time.sleep(0.3)
        rows.same("a place is free again", Client(path).asked("state")[-1], "done 1")
        for one in clients[:5] + clients[6:]:
            one.socket.close()
        time.sleep(0.5)
        deaf = Client(path)
        deaf.socket.setsockopt(socket.SOL_SOCKET, socket.SO_RCVBUF, 4096)
        deaf.socket.setblocking(False)
        sent, ended = 0, False
        last = time.monotonic() + 20
        while not ended and time.monotonic() < last:
            try:
                deaf.send("@1 state\n" * 50)
                sent += 50
            except BlockingIOError:
                time.sleep(0.01)
            except (BrokenPipeError, ConnectionResetError):
                ended = True
        rows.same("a client that does not read is closed", ended, True)
        rows.same("and others are answered", Client(path).asked("state")[-1], "done 1")
        held = Client(path)
        c.ask("node-1", "end", say=False)
        rows.same("the end closes the clients", held.line(), "")


def arbiter_of(rows):
    """The door of an arbitrator."""
    with started(program=rows.program) as c:
        client = Client(c.path("arbiter-1"))
        said = client.asked("state")
        rows.same("state", said, ["@1 arbiter 1 0", "@1 open 0", "@1 watchers 0", "done 1"])
        for line in ("log 7 1 1", "find 0000000000000000", "units 0000000000000000-ffffffffffffffff", "create 7 1", "hold 0000000000000000"):
            rows.same(line, client.asked(line), ["@1 fault line", "done 1"])
        rows.same("watch all", client.asked("watch all"), ["done 1"])
        c.ask("node-1", "create 7 1", say=False)
        rows.same("entries", client.asked("state")[0], "@1 arbiter 1 3")
        said = client.asked("leave")
        rows.same("leave", said, ["done 1"])
        rows.same("an arbitrator that leaves ends", c.processes["arbiter-1"].wait(5), 0)
        rows.same("its last line", c.log("arbiter-1", whole=True)[-1], re.compile("^[-0-9]{10}T[:0-9.]{12}Z end$"))


DOOR = {"door": door_of, "limits": limits_of, "arbiter": arbiter_of}
