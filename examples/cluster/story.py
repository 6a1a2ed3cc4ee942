"""What the page says around the commands: a heading and a text for each chapter. {heal} and the like are measured."""
import textwrap
import time

from serving import machine

HEAD = """# A cluster in five minutes

You start five nodes and three arbitrators on one machine, kill a primary and the manager, and see others take over.
`examples/cluster/run --page` made this page: each command below ran as shown, and the blocks show what it
printed. Times are those of that run ({machine}; the processes stopped again {all} after the first one started).

You need the program `fabricd` on the PATH (`bin/install` puts it there) and bash. `$fabric` is the folder of this
repository. Begin in an empty folder."""

CHAPTERS = {
    "begin": (
        "One file for all",
        """\
Every process reads the same [file](../examples/cluster/cluster.file): line 1 is the configuration, with the
addresses of all nodes and arbitrators; line 2 says which nodes to join by, and which partitions the cluster
keeps. Here a lease is 2,000 ms, and a partition is healed when its primary was away for `heal_after`, 1,000 ms.
`check` reads the file as a start does. The digits are the checksum of the configuration: all processes must
have the same one.""",
    ),
    "start": (
        "Start eight processes",
        """\
Each process has a folder of its own, which is the memory of its actor. Never give an actor an older copy of its
folder, and never start it again when the folder is lost. The log is standard output. `--page` serves the
numbers and the state of a process.""",
    ),
    "look": (
        "Look at it",
        """\
Node 1 begins with the whole ring. The others join by themselves, and each gets the part that is nearest to it.
The node that holds point 0 is the *manager*: it creates the three partitions. All of this took {start}.
`bin/watch` shows the cluster, once a second:""",
    ),
    "write": (
        "Write",
        """\
A partition is a log with one *primary*, which takes the writes. The logs say who it is: the words behind
`primary` are the partition and its epoch. A write is done when it is `committed`: a majority of the members has
it.""",
    ),
    "move": (
        "Move a primary",
        """\
The manager moves the role of the primary to another member. The new epoch has all committed entries of the one
before.""",
    ),
    "kill": (
        "Kill the primary",
        """\
Now the hard way. A moment later its points are held by nobody, and its partition has no primary:""",
    ),
    "heal": (
        None,
        """\
Its neighbours have accused it, and the arbitrators have made one of them the *heir*. The heir waits until the
killed node must have stopped by its own clock, and takes its points over. The manager has missed it too: after a
lease it is not up, and after `heal_after` more its partitions get another primary and another member. All points
are held again {heal} after the kill, and each partition has a primary, whose log is at three nodes. The view may
list a fourth one: a former member keeps its copy and its role.""",
    ),
    "heir": (
        None,
        """\
The logs say what happened, and the new primary takes a write. `log` lists the entries that its replica has;
what was committed before is there:""",
    ),
    "again": (
        "Start it again",
        """\
The killed node starts in its old folder, as its second instance, and joins again:""",
    ),
    "manager": (
        "Kill the manager",
        """\
The manager is a node as any other. When it is killed, point 0 goes to an heir, which is the manager then. A new
manager looks after each partition once, so their epochs rise. All was whole {manager} after the kill:""",
    ),
    "leave": (
        "Leave well",
        """\
A node that is asked to `leave` gives its points away and parts from its neighbours, so nobody has to wait for
its lease. It took {leave}. Its partitions get other members then.""",
    ),
    "stop": (
        "Stop everything",
        """\
`end` ends a process at once. For the others this is a crash, which is safe. But a ring whose nodes have all
stopped does not come back by itself ([service.md](service.md#a-ring-that-begins-again)). To begin this page
anew, use an empty folder.""",
    ),
    "draw": (
        "Draw what happened",
        """\
`bin/draw` joins the logs by their times of day. The file has `"lines":"all"`, so the logs have every renewal of
a lease, and the picture shows where a killed node's hold ended and when its heir began. Leave `lines` out for a
service: then an idle node writes next to nothing.""",
    ),
}

PICTURE = """
![Five nodes over time: who held which points, and who was primary](../examples/cluster/cluster.svg)
"""

TAIL = """
## What was checked

The script read the logs of all nodes after the run:

{checks}

Read on in [service.md](service.md), which defines `fabricd`, and in [operations.md](operations.md), which tells an
operator what each line asks for.
"""


class Story:
    """The chapters in their order, with the commands and what they printed."""

    def __init__(self, is_page):
        self.is_page, self.blocks, self.seconds, self.found = is_page, [], {}, []
        self.began, self.machine = time.monotonic(), machine()

    def chapter(self, key):
        self.blocks.append(("chapter", key))
        if not self.is_page and CHAPTERS[key][0]:
            print(f"{time.monotonic() - self.began:5.1f} s  {CHAPTERS[key][0]}", flush=True)

    def ran(self, command, lines):
        self.blocks.append(("ran", command, lines))

    def typed(self, command):
        self.blocks.append(("ran", command, []))

    def shows(self, lines):
        self.blocks.append(("shows", lines))

    def checked(self, found):
        self.found = found

    def write(self):
        if self.is_page:
            print(self.page(), end="")
            return
        print(", ".join(f"{key} {took}" for key, took in self.seconds.items()))
        for text, good in self.found:
            print(f"{'holds' if good else 'DOES NOT HOLD'}: {text}")

    def page(self):
        words = {**self.seconds, "machine": self.machine}
        parts = ["\n\n".join(wrapped(it) for it in HEAD.format(**words).split("\n\n")) + "\n"]
        for kind, *rest in joined(self.blocks):
            if kind == "chapter":
                heading, text = CHAPTERS[rest[0]]
                parts.append((f"\n## {heading}\n" if heading else "") + f"\n{wrapped(text.format(**words))}\n")
            elif kind == "ran":
                parts.append(fenced(rest[0]))
            else:
                parts.append(fenced(rest[0]))
        checks = "\n".join(wrapped(f"- {'' if good else '**Not so**: '}{text}.", "  ") for text, good in self.found)
        return "".join(parts) + PICTURE + TAIL.format(checks=checks)


def wrapped(text, indent=""):
    """A paragraph of the page. A link stays on one line."""
    return textwrap.fill(text.strip(), 120, subsequent_indent=indent, break_long_words=False, break_on_hyphens=False)


def joined(blocks):
    """The blocks, with the commands that follow each other as one block of lines."""
    found = []
    for kind, *rest in blocks:
        if kind != "ran":
            found.append((kind, *rest))
        elif found and found[-1][0] == "ran":
            found[-1][1].extend([*prompted(rest[0]), *rest[1]])
        else:
            found.append(("ran", [*prompted(rest[0]), *rest[1]]))
    return found


def prompted(command):
    """A command as a terminal shows it: what continues a line has no prompt."""
    first, *more = command.split("\n")
    return [f"$ {first}", *[f"  {it}" if it[:1] in (" ", "}") else f"$ {it}" for it in more]]


def fenced(lines):
    return "\n```text\n" + "\n".join(lines) + "\n```\n"
