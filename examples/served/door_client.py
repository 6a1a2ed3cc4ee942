"""A client of the door, and a cluster of one node and one arbitrator, for the rows of docs/service.md."""
import os
import socket

from cluster import Cluster

PORT = 46400
ALONE = {"nodes": 1, "arbiters": 1, "port": PORT, "lease": 1000, "grain": 100, "quiet": True, "service": {"join": []}}


class Client:
    """A connection to a door."""

    def __init__(self, path):
        here = os.getcwd()
        os.chdir(path)
        try:
            self.socket = socket.socket(socket.AF_UNIX)
            self.socket.settimeout(10)
            self.socket.connect("door")
        finally:
            os.chdir(here)
        self.unread = b""

    def send(self, data):
        self.socket.sendall(data if isinstance(data, bytes) else data.encode())

    def line(self):
        """The next line; empty at the end of the connection."""
        while b"\n" not in self.unread:
            try:
                piece = self.socket.recv(65536)
            except OSError:
                return None
            if not piece:
                return ""
            self.unread += piece
        line, self.unread = self.unread.split(b"\n", 1)
        return line.decode()

    def answer(self, tag=1):
        lines = []
        while True:
            line = self.line()
            lines.append(line)
            if not line or line == "done %s" % tag:
                return lines

    def asked(self, request, tag=1):
        self.send("@%s %s\n" % (tag, request))
        return self.answer(tag)


def started(**more):
    cluster = Cluster(more.pop("program"), **{**ALONE, **more})
    cluster.start("arbiter-1", say=False)
    cluster.start("node-1", say=False)
    return cluster
