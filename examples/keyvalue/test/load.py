"""Clients that write and read until standard input ends: usage: load.py HISTORY HOST:PORT,HOST:PORT.. SLOWER

HISTORY gets a line for each request: WORD CLIENT KEY SENT ANSWERED, what was put, and the answer. SENT and ANSWERED are
readings of CLOCK_BOOTTIME. A request without an answer has `-` for ANSWERED: nobody knows what became of it. Pauses are
so many times SLOWER than they are for a lease of 600.
"""
import random
import socket
import sys
import threading
import time

KEYS = ["k%d" % number for number in range(32)]
PATIENCE = 0.5  # seconds until a client goes to another service


def now():
    return time.clock_gettime(time.CLOCK_BOOTTIME)


class Client(threading.Thread):
    """One request after another. It stays with the service that answered about a key, until that says `elsewhere`."""

    def __init__(self, name, addresses, write, words, pause, slower):
        super().__init__(daemon=True)
        self.slower = slower
        self.name, self.addresses, self.write, self.words, self.pause = name, addresses, write, words, pause
        self.streams, self.known, self.count, self.is_over = {}, {}, 0, False

    def run(self):
        while not self.is_over:
            word, key = random.choice(self.words), random.choice(KEYS)
            self.count += 1
            text = " %s.%d" % (self.name, self.count) if word == "put" else ""
            for _ in self.addresses:
                if self.request(word, key, text) != "elsewhere":
                    break
            time.sleep(random.uniform(0, 2 * self.pause * self.slower))

    def request(self, word, key, text):
        about, services = (word == "next", key), len(self.addresses)
        place = self.known.setdefault(about, random.randrange(services))
        sent = now()
        answer = self.ask(place, "%s %s%s\n" % (word, key, text))
        if answer in ("elsewhere", "silent", "unknown"):
            self.known[about] = (place + 1) % services
        if answer != "elsewhere":
            ended = "-" if answer in ("silent", "unknown") else "%.6f" % now()
            self.write("%s %s %s %.6f %s%s %s\n" % (word, self.name, key, sent, ended, text, answer))
        return answer

    def ask(self, place, line):
        """The answer: `elsewhere` where nobody listens, `silent` where none came."""
        try:
            if place not in self.streams:
                self.streams[place] = socket.create_connection(self.addresses[place], PATIENCE)
                self.streams[place].setsockopt(socket.IPPROTO_TCP, socket.TCP_NODELAY, 1)
        except OSError:
            return "elsewhere"
        try:
            self.streams[place].sendall(line.encode())
            answer = b""
            while not answer.endswith(b"\n"):
                piece = self.streams[place].recv(4096)
                if not piece:
                    raise OSError
                answer += piece
            return answer.decode().rstrip("\n")
        except OSError:
            self.streams.pop(place).close()
            return "silent"


def main(path, addresses, slower):
    addresses = [(host, int(port)) for host, port in (it.rsplit(":", 1) for it in addresses.split(","))]
    lock = threading.Lock()
    with open(path, "a", buffering=1) as history:

        def write(line):
            with lock:
                history.write(line)

        kinds = [(("put", "put", "get"), 0.4)] * 4 + [(("next",), 0.02)] * 3 + [(("next", "next", "peek"), 0.04)] * 2
        clients = [Client("c%d" % n, addresses, write, *kind, float(slower)) for n, kind in enumerate(kinds)]
        for it in clients:
            it.start()
        sys.stdin.read()
        for it in clients:
            it.is_over = True
        for it in clients:
            it.join(3 * PATIENCE + 1)


if __name__ == "__main__":
    main(*sys.argv[1:])
