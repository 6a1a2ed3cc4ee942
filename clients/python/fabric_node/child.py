"""A child process with its standard input and output. Neither is ever waited for but in `wait` and `close`."""
import os
import select
import socket
import subprocess
import time

from .lines import MAX_LINE

MAX_WAITING = 262144  # bytes that wait for a child that does not read
MAX_PATIENCE = 10.0  # seconds that a child may take to end by itself


def now():
    """Seconds of a clock that goes on while the machine sleeps: a span must not stand still in that time."""
    return time.clock_gettime(time.CLOCK_BOOTTIME)


class Child:
    def __init__(self, words, folder):
        # A socket and not a pipe, so that a write to a child that has ended raises no SIGPIPE.
        self._input, theirs = socket.socketpair()
        self._output, writes = os.pipe()
        try:
            self._process = subprocess.Popen(words, stdin=theirs, stdout=writes, cwd=folder)
        except BaseException:
            self._input.close()
            os.close(self._output)
            raise
        finally:
            theirs.close()
            os.close(writes)
        self._input.setblocking(False)
        os.set_blocking(self._output, False)
        self._unread = bytearray()
        self._searched = 0  # so many bytes of it hold no line feed
        self._unsent = bytearray()
        self._reads = True  # it takes what is sent

    def descriptor(self):
        """Where its lines come from: it is readable once something has come."""
        return self._output

    def next_line(self):
        """The bytes of the next line, or None if no whole one has come. Of a line that is too long, a front."""
        end = self._unread.find(b"\n", self._searched)
        self._searched = len(self._unread)
        if end < 0:
            return bytes(self._unread[: MAX_LINE + 1]) if self._searched > MAX_LINE else None
        line = bytes(self._unread[:end])
        del self._unread[: end + 1]
        self._searched = 0
        return line

    def send(self, line):
        if self._reads:
            self._unsent += line
            self._flush()

    def _flush(self):
        try:
            while self._unsent:
                del self._unsent[: self._input.send(self._unsent)]
        except BlockingIOError:
            if len(self._unsent) <= MAX_WAITING:
                return
            self._stop_sending()
        except OSError:
            self._stop_sending()

    def _stop_sending(self):
        """A child that takes no more lines is of no use. What it wrote before its end is still read, in order."""
        self._unsent.clear()
        self._reads = False
        self._process.kill()

    def wait(self, seconds):
        """Waits for bytes at most so long (None: without a limit), and takes them. False: the output has ended."""
        poll = select.poll()
        poll.register(self._output, select.POLLIN)
        if self._unsent:
            poll.register(self._input, select.POLLOUT)
        poll.poll(None if seconds is None else max(0.0, seconds) * 1000)
        self._flush()
        try:
            piece = os.read(self._output, 65536)
        except BlockingIOError:
            return True
        self._unread += piece
        return bool(piece)

    def close(self):
        """Closes standard input, and waits for the end. What is still said is left unread."""
        self._input.close()
        self._unsent.clear()
        until = now() + MAX_PATIENCE
        while now() < until and self.wait(until - now()):
            self._unread.clear()
        try:
            self._process.wait(max(0.0, until - now()))
        except subprocess.TimeoutExpired:
            pass

    def end(self):
        """Ends the process if it still runs, and says how it ended. Its end is a crash, and safe."""
        self._input.close()
        os.close(self._output)
        self._process.kill()
        status = self._process.wait()
        return "status %d" % status if status >= 0 else "signal %d" % -status
