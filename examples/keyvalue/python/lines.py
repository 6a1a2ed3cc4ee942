"""Lines of text over TCP. Nothing waits but `wait`, and a connection to another service for a tenth of a second."""
import select
import socket

MAX_LINE = 65536  # bytes; whoever sends more without a line feed is dropped


class Connection:
    """One end of a connection. `heard` is called with each of its lines, and with None at its end."""

    def __init__(self, stream, heard):
        stream.setblocking(False)
        self.stream, self.heard, self.unread, self.is_open = stream, heard, b"", True

    def say(self, line):
        """Sends a line. Whoever does not read is dropped, and never waited for."""
        data = line.encode() + b"\n"
        try:
            if self.stream.send(data) < len(data):
                self.close()
        except OSError:
            self.close()

    def close(self):
        if self.is_open:
            self.is_open = False
            self.stream.close()
            self.heard(self, None)

    def take(self):
        """Takes what has come."""
        try:
            piece = self.stream.recv(65536)
        except BlockingIOError:
            return
        except OSError:
            piece = b""
        *lines, self.unread = (self.unread + piece).split(b"\n")
        for line in lines:
            if self.is_open:
                self.heard(self, line.decode("ascii", "replace"))
        if not piece or len(self.unread) > MAX_LINE:
            self.close()


class Lines:
    """A listener, its connections, and those to others."""

    def __init__(self, address, heard):
        self.listener = socket.create_server(address, backlog=64)
        self.listener.setblocking(False)
        self.heard, self.connections = heard, []

    def ask(self, address, line, heard):
        """Sends a line to another service. An end comes at once where nobody listens."""
        try:
            asked = Connection(socket.create_connection(address, 0.1), heard)
        except OSError:
            heard(None, None)
            return
        self.connections.append(asked)
        asked.say(line)

    def wait(self, seconds, other):
        """Waits until a line or something of the other descriptor has come, and takes the lines."""
        self.connections = [it for it in self.connections if it.is_open]
        waiting = {it.stream: it for it in self.connections}
        others = [] if other is None else [other]
        ready, _, _ = select.select([self.listener, *others, *waiting], [], [], seconds)
        for it in ready:
            if it is self.listener:
                self.accept()
            elif it in waiting and waiting[it].is_open:
                waiting[it].take()

    def accept(self):
        try:
            stream, _ = self.listener.accept()
        except OSError:
            return
        stream.setsockopt(socket.IPPROTO_TCP, socket.TCP_NODELAY, 1)
        self.connections.append(Connection(stream, self.heard))
