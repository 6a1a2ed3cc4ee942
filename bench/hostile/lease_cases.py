"""What comes to the nodes of `lease`: any bytes, silent crowds, clients that do not read, and files that are none."""
import os
import re
import select
import socket
import subprocess
import threading
import time

PLACES = 64  # connections of a door


def connect(node, seconds=8.0):
    link = socket.socket(socket.AF_UNIX, socket.SOCK_STREAM)
    link.settimeout(seconds)
    link.connect(os.path.join(node.folder, "door"))
    return link


def connect_page(node, seconds=8.0):
    host, port = node.cluster.page_of(node).split(":")
    return socket.create_connection((host, int(port)), seconds)


def any_bytes(node, draws, tally, seconds):
    """Any bytes at the door, in pieces: as many answers end as lines do."""
    until = time.monotonic() + seconds
    while time.monotonic() < until:
        text = draws.randbytes(draws.randint(1, 60_000)) + b"\n"
        feeds, got = text.count(b"\n"), b""
        with connect(node) as link:
            sender = threading.Thread(target=send, args=(link, text), daemon=True)
            sender.start()
            while count_done(got) < feeds:
                piece = link.recv(65_536)
                if not piece:
                    tally.fault(f"{node.name} closed a client that sent bytes")
                    break
                got += piece
            sender.join(5)
        tally.add("lines at doors", feeds)


def count_done(got):
    return len(re.findall(rb"^done (?:\d+|-)$", got[:got.rfind(b"\n") + 1], re.M))


def send(link, text):
    try:
        link.sendall(text)
    except OSError:
        pass


def is_closed(link, events):
    if not events:
        return False
    try:
        return link.recv(65_536) == b""
    except OSError:
        return True


class Crowd:
    """Connections that say nothing. Those that the process closes are let go."""

    def __init__(self, begin):
        self.begin, self.open, self.poll, self.closed = begin, {}, select.poll(), 0

    def add(self):
        """One more, as soon as the queue of the listener has a place."""
        until = time.monotonic() + 10
        while True:
            try:
                link = self.begin()
                break
            except (BlockingIOError, ConnectionError, TimeoutError):
                if time.monotonic() > until:
                    raise
                time.sleep(0.002)
        link.setblocking(False)
        self.open[link.fileno()] = link
        self.poll.register(link, select.POLLIN)

    def look(self, pause=0):
        for number, events in self.poll.poll(pause):
            link = self.open[number]
            if is_closed(link, events):
                self.poll.unregister(link)
                del self.open[number]
                link.close()
                self.closed += 1

    def settle(self, most, seconds):
        """Waits until at most so many stay."""
        until = time.monotonic() + seconds
        while len(self.open) > most and time.monotonic() < until:
            self.look(50)
        return len(self.open)

    def end(self):
        for link in self.open.values():
            link.close()


def begin_door(node):
    link = socket.socket(socket.AF_UNIX, socket.SOCK_STREAM)
    link.setblocking(False)
    try:
        link.connect(os.path.join(node.folder, "door"))
    except OSError:
        link.close()
        raise
    return link


def silent(node, begin, tally, count, most, what):
    """So many connections that say nothing: only so many stay."""
    crowd = Crowd(begin)
    for number in range(count):
        crowd.add()
        if number % 50 == 0:
            crowd.look()
    stay = crowd.settle(most, 10)
    if stay > most:
        tally.fault(f"{node.name}: {stay} of {count} silent connections to the {what} stay")
    tally.add(f"silent connections to {what}s", count)
    tally.add(f"silent connections to {what}s closed", crowd.closed)
    crowd.end()


def unread(node, tally):
    """A client that asks and does not read is closed."""
    link = connect(node)
    threading.Thread(target=send, args=(link, b"@1 state\n" * 3_000), daemon=True).start()
    watched = select.poll()
    watched.register(link, select.POLLRDHUP | select.POLLHUP | select.POLLERR)
    if not watched.poll(10_000):
        tally.fault(f"{node.name} keeps a client that does not read")
    link.close()
    tally.add("clients that read nothing")


def page_bytes(node, draws, tally, seconds):
    """Any bytes at the page: 400, or closed."""
    until = time.monotonic() + seconds
    while time.monotonic() < until:
        head, got = draws.randbytes(draws.randint(0, 3_000)) + draws.choice((b"", b"\r\n\r\n")), b""
        with connect_page(node) as link:
            try:
                link.sendall(head)
                link.shutdown(socket.SHUT_WR)
                while piece := link.recv(65_536):
                    got += piece
            except OSError:  # closed before all was sent
                pass
        tally.add("requests")
        if got and not got.startswith(b"HTTP/1.0 40"):
            tally.fault(f"{node.name}: the page answers {got[:80]!r} to {head[:80]!r}")


def datagrams(node, draws, tally, seconds):
    """Any bytes at the socket: those of a frame begin with another byte."""
    until = time.monotonic() + seconds
    with socket.socket(socket.AF_INET, socket.SOCK_DGRAM) as out:
        while time.monotonic() < until:
            for _ in range(50):
                it = draws.randbytes(draws.randrange(1_500))
                out.sendto(it if it[:1] != b"S" else b"T" + it[1:], ("127.0.0.1", node.cluster.port + node.number))
            tally.add("datagrams", 50)
            time.sleep(0.02)


def bad_files(cluster):
    """Each FILE that is none, with the last line of a start."""
    place = os.path.join(cluster.folder, "files")
    os.mkdir(place)
    os.mkfifo(f"{place}/fifo")
    os.mkdir(f"{place}/folder")
    with open(f"{place}/large", "wb") as file:
        for _ in range(100):
            file.write(b"x" * 1_000_000)
    return [(f"{place}/{name}", "fault large 1" if name == "large" else "fault read")
            for name in ("fifo", "folder", "missing", "large")]


def files(cluster, tally):
    """A start with such a FILE ends at once, and so does `check`."""
    for file, wanted in bad_files(cluster):
        for words in (["check", file], ["node", "1", file, "--folder", cluster.folder + "/other"]):
            try:
                ran = subprocess.run([cluster.program, *words], stdin=subprocess.DEVNULL, stdout=subprocess.PIPE,
                                     stderr=subprocess.PIPE, timeout=10)
            except subprocess.TimeoutExpired:
                tally.fault(f"{' '.join(words)} does not end within 10 s")
                continue
            said = ran.stdout.decode().strip().splitlines()[-1:]
            if ran.returncode == 0 or said != [wanted]:
                tally.fault(f"{' '.join(words)}: status {ran.returncode}, {said}, and {wanted} was wanted")
            tally.add("starts with a bad FILE")
