"""What happens in a story of `longest`: a schedule that grows while the program runs along, and the acts that it is made of."""
import collections
import importlib.machinery
import importlib.util
import os
import sys

sys.dont_write_bytecode = True

import step_times  # noqa: E402

HERE = os.path.dirname(os.path.abspath(__file__))
LOADER = importlib.machinery.SourceFileLoader("ring", os.path.join(HERE, "ring"))
ring = importlib.util.module_from_spec(importlib.util.spec_from_loader("ring", LOADER))
LOADER.exec_module(ring)

DOMAINS = ",".join('{"node":%d,"point":"%s","domain":%d}' % it for it in zip((1, 2, 3, 4), ring.POINTS, (1, 2, 3, 3)))
CONFIG = ring.CONFIG.replace(ring.NODES, DOMAINS).replace('"first":1', '"first":4')
BLOCK = 48  # lines that are timed at once where entry follows entry
LAST = 400  # entries of a copy whose lines are timed one by one
FREED = 250  # steps in which a replaced log is freed, and more
CHANGED = 40  # names that are set again, and as many that are deleted


def report_of(folder, name):
    return os.path.join(folder, "longest-%s.report" % name)


class Story(ring.Schedule):
    """A schedule that grows. The program runs along, so that its report has what was sent.

    Its lines are parts of a kind each. Nodes 1 to 3 may be members of partition 1, in three domains. Node 4 is the manager,
    in the domain of node 3, so a heal to three replicas places them at nodes 1 to 3.
    """

    def __init__(self, program, name, folder, full):
        super().__init__(program)
        self.lines = [CONFIG]
        self.name, self.full = name, full
        self.path = os.path.join(folder, "longest-" + name)
        with open(report_of(folder, name), "wb") as into:
            self.fed = step_times.Fed(program, into)
        self.report = open(report_of(folder, name))
        self.asked = 0
        self.news = []
        self.counts = collections.Counter()
        self.parts = []

    def fail(self, what):
        sys.exit("%s, line %d: %s" % (self.name, len(self.lines), what))

    def part(self, kind, count=1):
        """The lines from here on are of this kind, and so many of them are timed at once."""
        self.parts.append((len(self.lines), kind, count))

    def ask(self):
        """Feeds the program what is new, and reads what it reports of that."""
        if self.asked == len(self.lines):
            return
        self.fed.feed(self.lines[self.asked :])
        self.asked = len(self.lines)
        self.news = self.report.read().splitlines()
        for line in self.news:
            words = line.split(None, 5)
            if words[0] == "fault":
                self.fail(line)
            self.counts[words[4]] += 1
            if words[4] == "sent":
                self.sent = int(words[5].split("-")[1])

    def reported(self, words):
        return any(line.endswith(" " + words) for line in self.news)

    def expect(self, words):
        if not self.reported(words):
            self.fail("not reported: " + words)

    def give_sent(self):
        """Every frame that was sent so far."""
        self.lines += ["give %d" % k for k in range(self.given + 1, self.sent + 1)]
        self.given = self.sent
        self.ask()

    def give_until(self, words):
        """Every frame, and every frame that is sent then, until these words are reported."""
        self.ask()
        while not self.reported(words):
            if self.given == self.sent:
                self.fail("no frame is left, and not reported: " + words)
            self.give_sent()

    def command(self, line, words):
        self.lines.append(line)
        self.give_until(words)

    def stop(self, node):
        self.lines.append("stop %d" % node)
        del self.begun[node]

    def end(self):
        self.fed.end()
        self.report.close()
        with open(self.path, "w") as kept:
            kept.write("\n".join(self.lines) + "\n")


def begin(story, replicas, parted=()):
    """All nodes start, the manager hears them, and node 1 becomes the primary of partition 1. Some links end again."""
    story.part("beginning")
    story.lines += ["start a%d" % a for a in (1, 2, 3)]
    for node in (1, 2, 3, 4):
        story.start(node)
    story.ask()
    if not story.news:
        sys.exit("the program reports nothing before its input ends, so its steps cannot be timed")
    for node in (1, 2, 3):
        story.do("do %d link 4" % node)
    for node in parted:
        story.do("do %d part 4" % node)
    story.command("do 4 create 1 %d" % replicas, "configured 1 0.1")
    story.give_all()


def setting(node, word, number):
    return "do %d write 1 set %s-%d value-%d" % (node, word, number, number)


def write(story, node, word, epoch, count):
    """A primary without other members writes an entry for each of so many names."""
    story.part("write", BLOCK)
    story.lines += [setting(node, word, k) for k in range(count)]
    story.ask()
    story.expect("committed 1 %s %d" % (epoch, count))


def expect_one(story):
    if story.sent != story.given + 1:
        story.fail("a copy has one frame under way")


def begin_copy(story, command, epoch, origin, last):
    """A reconfiguration, until a member gets the first entry of the log. Returns the number of the frame that has it."""
    story.part("reconfiguration")
    story.command("do 4 " + command, "%s 0 adopted 1 %s %d" % (origin, epoch, last))
    story.give_sent()
    expect_one(story)
    return story.sent


def copy(story, count):
    """So many entries go to the member, each in a frame for which another one asks."""
    story.part("copy", BLOCK)
    story.lines += ["give %d" % k for k in range(story.given + 1, story.given + 1 + 2 * count)]
    story.given += 2 * count
    story.ask()
    expect_one(story)


def copy_whole(story, command, epoch, origin, taker, last):
    """A member gets the log of another node. The frames of its last entries are timed one by one."""
    begin_copy(story, command, epoch, origin, last)
    copy(story, last - LAST)
    story.part("copy")
    story.give_until("%s 0 adopted 1 %s %d" % (taker, epoch, last))
    story.part("reconfiguration")
    story.give_until("configured 1 " + epoch)
    story.give_all()


def reconfigure(story, manager, command, words):
    """A reconfiguration, until these words are reported, and all its frames."""
    story.part("reconfiguration")
    story.command("do %d %s" % (manager, command), words)
    story.give_all()


def go_on_alone(story, node, epoch):
    """The operator goes on with the replica of one node, which becomes the primary at once."""
    reconfigure(story, 4, "lose 1 %d" % node, "configured 1 " + epoch)


def resolving(node, word, numbers):
    return ["do %d resolve 1 %s-%d" % (node, word, k) for k in numbers]


def listing(node):
    """Which names there are in each 256th of the ring, and in all of it."""
    ranges = ["%02x%s-%02x%s" % (k, 14 * "0", k, 14 * "f") for k in range(256)] + ["%s-%s" % (16 * "0", 16 * "f")]
    return ["do %d names 1 %s" % (node, each) for each in ranges]


def ask_first(story, node, word, kind="question"):
    """A new primary is asked before it commits its first entry, which it does then, and is asked at once."""
    story.part(kind)
    story.command("do %d resolve 1 %s-0" % (node, word), "refused resolve notready")
    story.part("write")
    story.lines.append("do %d write 1 set the-first of-a-new-primary" % node)
    story.give_all()
    story.part(kind)
    story.command("do %d resolve 1 %s-0" % (node, word), "resolved 1 %s-0 value-0" % word)


def ask_all(story, node, word, count):
    """Some questions that are timed one by one, and then one about each name."""
    story.part("question")
    story.lines += resolving(node, word, range(0, count, count // FREED)) + listing(node)
    story.ask()
    story.part("question", BLOCK)
    story.lines += resolving(node, word, range(count))
    story.ask()
    found = sum(" resolved 1 " in line for line in story.news)
    if found != count:
        story.fail("%d names of %d are found" % (found, count))


def change(story, node, word):
    """Names are set again, and deleted."""
    story.part("write")
    story.lines += ["do %d write 1 set %s-%d another-value" % (node, word, k) for k in range(CHANGED)]
    story.lines += ["do %d write 1 del %s-%d" % (node, word, k) for k in range(CHANGED)]
    story.part("question")
    story.command("do %d resolve 1 %s-0" % (node, word), "unresolved 1 %s-0" % word)


def stop(story, node):
    story.part("restart")
    story.stop(node)


def start(story, node):
    story.part("restart")
    story.start(node)
    story.ask()
