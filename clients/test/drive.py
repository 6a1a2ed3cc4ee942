"""Drives the Python client through a scenario: usage: drive.py SCENARIO FOLDER. drive.c does the same with the C client.

A line of `[calls]` is a call, or `on HANDLER N CALL`: what the N-th call of a handler does (`*`: each call).
"""
import math
import os
import select
import sys
import time

HERE = os.path.dirname(os.path.realpath(__file__))
sys.path[:0] = [os.path.join(HERE, "..", "python"), HERE]
sys.dont_write_bytecode = True

from fabric_node import FabricError, Node  # noqa: E402
from play import sections  # noqa: E402


class Failed(Exception):
    """What a handler of a scenario raises."""


def say(*words):
    print("  " * driver.depth + " ".join(str(word) for word in words), flush=True)


class Driver:
    """The calls and the handlers of a scenario."""

    def __init__(self, scenario, folder):
        self.words = [sys.executable, "-I", "-S", os.path.join(HERE, "play.py"), scenario, "--folder", folder]
        self.node, self.depth, self.counts, self.actions, self.quiet = None, 0, {}, [], False

    def handler(self, name, *fields):
        if not self.quiet:
            say(name, *fields)
        self.counts[name] = self.counts.get(name, 0) + 1
        self.depth += 1
        try:
            for wanted, number, call in self.actions:
                if wanted == name and number in ("*", str(self.counts[name])):
                    self.run(call)
        finally:
            self.depth -= 1

    def gained(self, ranges):
        self.handler("gained", shown(ranges))

    def losing(self, ranges):
        self.handler("losing", shown(ranges))

    def lost(self):
        self.handler("lost")

    def primary(self, partition, epoch):
        self.handler("primary", partition, epoch)

    def promised(self, partition, epoch):
        self.handler("promised", partition, epoch)

    def committed(self, partition, epoch, lsn):
        self.handler("committed", partition, epoch, lsn)

    def run(self, line):
        word, _, rest = line.partition(" ")
        if word == "on":
            self.actions.append(rest.split(" ", 2))
            return
        try:
            getattr(self, "do_" + word)(*([rest] if word in ("ask", "write") else rest.split()))
        except FabricError as error:
            is_told = error.name == "refused" or (word == "start" and error.name != "folder")
            say(word, "error", error.name, *([error.text] if is_told else []))
            for text in error.lines if word.startswith("ask") else ():
                say(" ", text)

    def do_start(self):
        self.node = Node(self.words, self)
        say("start")

    def do_nowhere(self):
        self.fails("nowhere", ["/nowhere/fabricd", "--folder", "/nowhere"], self)

    def do_misuse(self):
        self.fails("misuse", self.words, object())
        self.fails("misuse", [], self)

    def fails(self, word, words, handlers):
        try:
            Node(words, handlers)
        except FabricError as error:
            say(word, "error", error.name, error.text)

    def do_second(self):
        Node(self.words, self)
        say("second")

    def do_alias(self):
        Node(self.words[:-2] + ["--folder=%s/../%s/." % (self.words[-1], os.path.basename(self.words[-1]))], self)
        say("alias")

    def do_ask(self, line):
        answer = self.node.ask(line)
        say("ask")
        for text in answer.lines:
            say(" ", text)

    def do_askcount(self, line):
        lines = self.node.ask(line).lines
        say("ask", len(lines), sum(map(len, lines)))

    def do_askbig(self, count):
        self.do_ask("x" * int(count))

    def do_asklines(self):
        self.do_ask("state\n@2 end")

    def do_write(self, rest):
        partition, _, text = rest.partition(" ")
        say("write", self.node.write(int(partition), text))

    def do_writebig(self, count):
        say("write", self.node.write(7, "x" * int(count)))

    def do_log(self, partition, first):
        entries = self.node.log(int(partition), int(first))
        say("log", len(entries))
        for entry in entries[:1] + entries[1:][-1:]:
            say(" ", entry.epoch, entry.lsn, entry.text.decode())

    def do_holds(self, point, low, high):
        left = math.ceil(1000 * self.node.holds(int(point, 16)))
        say("holds", "%s-%s" % (low, high) if int(low) <= left <= int(high) else left)

    def do_leads(self, partition):
        say("leads", self.node.leads(int(partition)))

    def do_poll(self, milliseconds):
        self.node.poll(int(milliseconds) / 1000)

    def do_polled(self, milliseconds, low, high):
        began = time.monotonic()
        self.node.poll(int(milliseconds) / 1000)
        passed = 1000 * (time.monotonic() - began)
        say("polled", "%s-%s" % (low, high) if int(low) <= passed <= int(high) else passed)

    def do_readable(self, milliseconds):
        descriptor = self.node.descriptor()
        ready = descriptor is not None and select.select([descriptor], [], [], int(milliseconds) / 1000)[0]
        say("readable", "none" if descriptor is None else "yes" if ready else "no")

    def do_until(self, word, count, milliseconds):
        end = time.monotonic() + int(milliseconds) / 1000
        while self.counts.get(word, 0) < int(count) and time.monotonic() < end:
            self.node.poll(end - time.monotonic())
        say("until", word, self.counts.get(word, 0))

    def do_faults(self, count):
        for number in range(int(count)):
            self.do_until("lost", number + 1, 60000)
            self.do_fault()

    def do_fault(self):
        say("fault", self.node.fault)

    def do_sleep(self, milliseconds):
        time.sleep(int(milliseconds) / 1000)

    def do_quiet(self):
        self.quiet = True

    def do_chdir(self, folder):
        os.chdir(folder)

    def do_fail(self):
        raise Failed

    def do_close(self):
        self.node.close()
        say("close")


def shown(ranges):
    return ",".join("%016x-%016x" % pair for pair in ranges) or "-"


def main():
    before = len(os.listdir("/proc/self/fd"))
    driver.run("start")
    for line in dict(sections(sys.argv[1]))["calls"]:
        driver.run(line)
    say("descriptors", len(os.listdir("/proc/self/fd")) - before)
    try:
        os.waitpid(-1, os.WNOHANG)
        say("a child is left")
    except ChildProcessError:
        say("no child")


driver = Driver(sys.argv[1], sys.argv[2])
if __name__ == "__main__":
    main()
