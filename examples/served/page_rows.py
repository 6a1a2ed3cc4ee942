"""The rows of docs/service.md about a process that runs: its page, its log, and bad input."""
import os
import re
import socket
import subprocess
import time

from cluster import Cluster
from door_client import ALONE, PORT, Client, started


def request(port, data, seconds=10):
    """What the page answers to these bytes, up to the end of the connection."""
    link = socket.create_connection(("127.0.0.1", port), timeout=seconds)
    link.sendall(data)
    said = b""
    try:
        while True:
            piece = link.recv(65536)
            if not piece:
                return said.decode()
            said += piece
    except OSError:
        return said.decode() or None
    finally:
        link.close()


FAMILIES = """links ring_share fence_left_seconds routing manages sealed frames_sent_total frames_received_total frames_refused_total
records_total record_bytes replicas entries committed reconfiguration_seconds without_manager_seconds split_grants_total commands_total
refusals_total lines_refused_total turns_total firings_total slow_turns_total longest_turn_seconds connections watchers
connections_dropped_total log_lines_dropped_total held_frames config_info""".split()


def page_of(rows):
    """The page."""
    with started(program=rows.program) as c:
        port = c.page("node-1")

        def answered(what, data, status, body):
            said = request(port, data)
            head, _, text = (said or "").partition("\r\n\r\n")
            rows.same(what, head.split("\r\n")[0], "HTTP/1.0 " + status)
            fields = dict(line.split(": ", 1) for line in head.split("\r\n")[1:] if ": " in line)
            rows.same(what + ": the length", fields.get("Content-Length"), str(len(text.encode())))
            rows.same(what + ": the connection", fields.get("Connection"), "close")
            if body is not None:
                rows.same(what + ": the body", text, body)
                rows.same(what + ": the type", fields.get("Content-Type"), "text/plain")
            return fields, text

        answered("healthz", b"GET /healthz HTTP/1.0\r\n\r\n", "200 OK", "ok")
        answered("HTTP/1.1", b"GET /healthz HTTP/1.1\r\nHost: x\r\n\r\n", "200 OK", "ok")
        answered("another path", b"GET / HTTP/1.0\r\n\r\n", "404 Not Found", "not found")
        fields, _ = answered("another method", b"POST /metrics HTTP/1.0\r\n\r\n", "405 Method Not Allowed", "only GET")
        rows.same("Allow", fields.get("Allow"), "GET")
        answered("no head", b"x\r\n\r\n", "400 Bad Request", "bad request")
        answered("bytes", b"\xff\xfe\r\n\r\n", "400 Bad Request", "bad request")
        answered("2,048 bytes without an end", b"GET /" + b"x" * 2043, "400 Bad Request", "bad request")
        answered("33 fields", b"GET /healthz HTTP/1.0\r\n" + b"A: b\r\n" * 33 + b"\r\n", "400 Bad Request", "bad request")
        answered("32 fields", b"GET /healthz HTTP/1.0\r\n" + b"A: b\r\n" * 32 + b"\r\n", "200 OK", "ok")
        fields, text = answered("state", b"GET /state HTTP/1.0\r\n\r\n", "200 OK", None)
        rows.same("state: the type", fields.get("Content-Type"), "application/json")
        rows.same("state", text, re.compile(
            r'^\{"node":"1\.1","phase":"routing","reading":\d+,"fence":null,"owns":\["0{16}-f{16}"\],"up":\[1\],"links":\[\],"replicas":\[\],'
            r'"changing":\[\],"open":0,"watchers":0,"checksum":"[0-9a-f]{64}"\}$'))
        fields, text = answered("metrics", b"GET /metrics HTTP/1.0\r\n\r\n", "200 OK", None)
        rows.same("metrics: the type", fields.get("Content-Type"), "text/plain; version=0.0.4")
        rows.same("families", [line.split()[2][len("fabricd_"):] for line in text.splitlines() if line.startswith("# HELP")], FAMILIES)
        rows.same("types", [line.split()[2][len("fabricd_"):] for line in text.splitlines() if line.startswith("# TYPE")], FAMILIES)
        rows.same("no fence, no sample", "fabricd_fence_left_seconds " in text.replace("# HELP fabricd_fence_left_seconds ", "").replace(
            "# TYPE fabricd_fence_left_seconds ", ""), False)
        for sample in (r"ring_share 1\.000000", "routing 1", "manages 1", "sealed 0", r"without_manager_seconds \d+\.\d{3}",
                       r"longest_turn_seconds \d+\.\d{3}", r'links\{state="bound"\} 0', r'replicas\{role="primary"\} 0',
                       r'frames_sent_total\{kind="Hello"\} 0', r'commands_total\{from="door"\} 0', r'lines_refused_total\{why="busy"\} 0',
                       r'config_info\{checksum="[0-9a-f]{64}",version="\d+\.\d+\.\d+",instance="1"\} 1', "records_total 1", "record_bytes 7"):
            rows.same("metrics " + sample, re.search("(?m)^fabricd_%s$" % sample, text) is not None, True)
        began = time.monotonic()
        rows.same("a head that does not come", request(port, b"GET /healthz"), "")
        rows.same("it is closed after 2 s", 1.9 < time.monotonic() - began < 3.5, True)
        held = [socket.create_connection(("127.0.0.1", port)) for _ in range(16)]
        time.sleep(0.2)
        rows.same("the 17th connection is closed", request(port, b"GET /healthz HTTP/1.0\r\n\r\n") or "", "")
        for one in held:
            one.close()
        text = request(c.page("arbiter-1"), b"GET /state HTTP/1.0\r\n\r\n").partition("\r\n\r\n")[2]
        rows.same("state of an arbitrator", text, re.compile(r'^\{"arbiter":1,"entries":0,"open":0,"watchers":0,"checksum":"[0-9a-f]{64}"\}$'))
        rows.same("healthz of an arbitrator", request(c.page("arbiter-1"), b"GET /healthz HTTP/1.0\r\n\r\n").endswith("\r\n\r\nok"), True)
        rows.same("families of an arbitrator", len(re.findall("(?m)^# TYPE", request(c.page("arbiter-1"), b"GET /metrics HTTP/1.0\r\n\r\n"))), len(FAMILIES))
    with Cluster(rows.program, **{**ALONE, "nodes": 2, "service": {"join": []}}) as c:
        c.start("node-2", say=False)
        said = request(c.page("node-2"), b"GET /healthz HTTP/1.0\r\n\r\n")
        rows.same("a node that is not in the ring", said.split("\r\n")[0], "HTTP/1.0 503 Service Unavailable")
        rows.same("its body", said.partition("\r\n\r\n")[2], "not routing")


def log_of(rows):
    """The log: its lines, a full pipe, a closed output."""
    with started(program=rows.program) as c:
        for line in ("create 7 1", "write 7 a", "find 0000000000000000", "find 8000000000000000"):
            c.ask("node-1", line, say=False)
        c.ask("node-1", "leave", say=False)
        rows.same("leave of the only node", c.processes["node-1"].wait(10), 0)
        log = c.log("node-1", whole=True)
        rows.same("times", [line for line in log if not re.match(r"^\d{4}-\d\d-\d\dT\d\d:\d\d:\d\d\.\d{3}Z ", line)], [])
        said = [re.sub(r"\d+ - 1\.1 \d+ ", "", line.split(" ", 1)[1]) for line in log]
        wanted = ["unsealed", "listening 127.0.0.1:%d" % (PORT + 1), "begin 1.1", "own 0000000000000000-ffffffffffffffff -",
                  "promised 7 0.1", "primary 7 0.1", "configured 7 0.1", "accepted 7 0.1 1", "committed 7 0.1 1", "found 0000000000000000 1.1",
                  "found 8000000000000000 1.1", "end"]
        rows.same("the log", said, wanted)
    with Cluster(rows.program, **ALONE) as c:
        c.start("arbiter-1", say=False)
        read, write = os.pipe()
        words = [rows.program, "node", "1", c.path("cluster"), "--folder", c.path("node-1"), "--page", "127.0.0.1:%d" % c.page("node-1")]
        c.processes["node-1"] = subprocess.Popen(words, stdout=write, stdin=subprocess.DEVNULL, cwd=c.here)
        os.close(write)
        c.until("it runs", lambda: bool(c.state("node-1")))
        client = Client(c.path("node-1"))
        client.asked("create 7 1")
        for _ in range(40):
            client.send("".join("@%d write 7 %s\n" % (n, "x" * 400) for n in range(100)))
            for n in range(100):
                client.answer(n)
        rows.same("a full pipe stops nothing", client.asked("state")[-1], "done 1")
        dropped = c.metrics("node-1")["log_lines_dropped_total"]
        rows.same("lines are dropped", dropped > 0, True)
        said = b""
        while b"dropped " not in said:
            said += os.read(read, 65536)
            client.asked("write 7 y")
        rows.same("they are counted in the log", re.search(rb"Z dropped (\d+)\n", said) is not None, True)
        os.close(read)
        for _ in range(20):
            client.asked("write 7 z")
        rows.same("a closed output ends nothing", client.asked("state")[-1], "done 1")


def bad_input_of(rows):
    """Bad input: connections, datagrams, bytes."""
    with started(program=rows.program) as c:
        path = c.path("node-1")
        links = []
        for _ in range(2000):
            one = socket.socket(socket.AF_UNIX)
            here = os.getcwd()
            os.chdir(path)
            try:
                one.connect("door")
                links.append(one)
            finally:
                os.chdir(here)
        time.sleep(1)
        rows.same("64 of 2,000 silent connections stay", c.metrics("node-1")["connections"], 64.0)
        for one in links:
            one.close()
        time.sleep(0.5)
        sender = socket.socket(socket.AF_INET, socket.SOCK_DGRAM)
        before = c.metrics("node-1")['frames_refused_total{why="junk"}']
        for size in (0, 1, 15, 100, 1200, 1500, 9000):
            sender.sendto(os.urandom(size), ("127.0.0.1", PORT + 1))
        for _ in range(1000):
            sender.sendto(b"S\x01\x01" + os.urandom(16), ("127.0.0.1", PORT + 1))
        time.sleep(1)
        rows.same("datagrams that are no frames are counted", c.metrics("node-1")['frames_refused_total{why="junk"}'] > before + 100, True)
        rows.same("the node goes on", Client(path).asked("state")[-1], "done 1")
        flood = Client(path)
        flood.send(b"\n" * 1000)
        rows.same("1,000 empty lines", [flood.answer("-") for _ in range(1000)], [["@- fault line", "done -"]] * 1000)
        flood.send(b"x" * 1_000_000 + b"\n")
        rows.same("a million bytes", flood.answer("-"), ["@- fault large", "done -"])
        counted = c.metrics("node-1")
        rows.same("refused lines are counted", (counted['lines_refused_total{why="line"}'], counted['lines_refused_total{why="large"}']), (1000.0, 1.0))


PAGE = {"page": page_of, "log": log_of, "bad-input": bad_input_of}
