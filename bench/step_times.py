"""What each line of a schedule takes `fabric replay`, in its own processor time.

The program is fed through a pipe, and writes what it finds before it waits for more. So once the pipe is empty and the
program sleeps, it has done what it was fed, and the system's count of its time says what that took.
"""
import collections
import fcntl
import os
import subprocess
import sys
import termios
import time

RUNS = 3
REST = 20e-6  # seconds until the program is looked at again
LONG = 1_000_000  # nanoseconds: lines that were timed at once and took longer are timed one by one

# Lines that are timed at once: their kind, the number of the first, and the lines.
Unit = collections.namedtuple("Unit", "kind first lines")


class Fed:
    """A program that replays a schedule which it is fed piece by piece."""

    def __init__(self, program, report):
        self.child = subprocess.Popen([program, "replay"], stdin=subprocess.PIPE, stdout=report, bufsize=0)
        self.pipe = self.child.stdin.fileno()
        self.state = os.open("/proc/%d/stat" % self.child.pid, os.O_RDONLY)
        self.clock = os.open("/proc/%d/schedstat" % self.child.pid, os.O_RDONLY)

    def waits(self):
        """Whether the program has read all that it was fed, and waits for more or has ended."""
        if any(fcntl.ioctl(self.pipe, termios.FIONREAD, bytes(4))):
            return False
        return os.pread(self.state, 1024, 0).rpartition(b") ")[2][:1] in b"SZX"

    def taken(self):
        """The nanoseconds of processor time that the program has taken so far."""
        return int(os.pread(self.clock, 1024, 0).split()[0])

    def feed(self, lines):
        """Gives the program lines, and returns the nanoseconds that it has taken once it has done them."""
        text = memoryview(("\n".join(lines) + "\n").encode())
        try:
            while text:
                text = text[os.write(self.pipe, text) :]
        except BrokenPipeError:
            sys.exit("the program has ended with %d" % self.child.wait())
        while not self.waits():
            time.sleep(REST)
        return self.settled()

    def settled(self):
        """The count of a program that waits. It rises a last time just before the program sleeps."""
        before, now = None, self.taken()
        while before != now:
            before, now = now, self.taken()
        return now

    def end(self):
        self.child.stdin.close()
        status = self.child.wait()
        os.close(self.state)
        os.close(self.clock)
        if status != 0:
            sys.exit("the program ended with %d" % status)


def units(lines, parts):
    """The lines behind the configuration in units. A part has its place, its kind, and how many lines are timed at once."""
    found = []
    ends = [part[0] for part in parts[1:]] + [len(lines)]
    for (begun, kind, count), end in zip(parts, ends):
        for place in range(begun, end, count):
            found.append(Unit(kind, place + 1, lines[place : min(place + count, end)]))
    return found


def run(program, configuration, found):
    """The nanoseconds of each unit in one run."""
    fed = Fed(program, subprocess.DEVNULL)
    marks = [fed.feed([configuration])]
    marks += [fed.feed(unit.lines) for unit in found]
    fed.end()
    return [after - before for before, after in zip(marks, marks[1:])]


def least(program, configuration, found):
    """The least of each unit in all runs, so that a busy machine changes it little."""
    return [min(each) for each in zip(*(run(program, configuration, found) for _ in range(RUNS)))]


def single(found, taken):
    """The units, but those that took long line by line."""
    parted = []
    for unit, nanoseconds in zip(found, taken):
        if nanoseconds > LONG:
            parted += [Unit(unit.kind, unit.first + k, [line]) for k, line in enumerate(unit.lines)]
        else:
            parted.append(unit)
    return parted


def timed(program, lines, parts):
    """Each unit with its nanoseconds. Those of more lines than one are a bound for each of its lines."""
    found = units(lines, parts)
    taken = least(program, lines[0], found)
    parted = single(found, taken)
    if len(parted) > len(found):
        found, taken = parted, least(program, lines[0], parted)
    return list(zip(found, taken))
