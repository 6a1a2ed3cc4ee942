"""Reads the logs of the nodes of a cluster, and checks them against each other.

Each line has the time of day at which it was written. A step is done whole before its lines are written, so two logs
may have the ends of one flight in the wrong order, by the length of a turn. ERROR is what the check allows for that.
"""
import datetime
import re

ERROR = 50  # milliseconds
LINE = re.compile(r"(\S+Z) ([0-9]+) - ([0-9]+)\.([0-9]+) ([0-9]+) ([a-z]+) ?(.*)")


class Said:
    """A report in a log: when it was written, by which instance at which reading, and its words."""

    def __init__(self, found):
        time, turn, node, instance, reading, self.word, rest = found.groups()
        self.at = datetime.datetime.fromisoformat(time[:-1] + "+00:00").timestamp() * 1000
        self.turn, self.node, self.instance, self.reading = int(turn), int(node), int(instance), int(reading)
        self.fields = rest.split()

    def who(self):
        return f"{self.node}.{self.instance}"


def reports(path):
    """The reports of a log, in their order."""
    with open(path) as file:
        found = [LINE.fullmatch(line.rstrip("\n")) for line in file]
    return [Said(it) for it in found if it]


def ranges(text):
    return [] if text == "-" else [tuple(int(it, 16) for it in part.split("-")) for part in text.split(",")]


def holds(logs):
    """What each instance held: (from, to, who, ranges) in milliseconds. A hold ends with the next `own` line, or a line
    `gave` of the same step before it, or at its fence: also that of a process that was killed, since nobody else may
    hold the points before.
    """
    found = []
    for log in logs:
        last, gave = {}, {}
        for it in log:
            if it.word == "gave":
                gave[it.who()] = it.at
            elif it.word == "own":
                if it.who() in last:
                    begun, owned, until = last[it.who()]
                    found.append((begun, min(gave.pop(it.who(), it.at), until), it.who(), owned))
                fence = it.fields[1]
                until = float("inf") if fence == "-" else it.at + int(fence) - it.reading
                last[it.who()] = (it.at, ranges(it.fields[0]), until)
        end = max((it.at for it in log), default=0)
        found += [(begun, end if until == float("inf") else until, who, owned)
                  for who, (begun, owned, until) in last.items()]
    return sorted(it for it in found if it[3] and it[1] > it[0])


def overlaps(held):
    """Two instances that hold a point: by how many milliseconds at most, and the first such pair above ERROR."""
    most, first, active = 0.0, None, []
    for it in held:
        active = [other for other in active if other[1] > it[0]]
        for other in active:
            if other[2] != it[2] and any(a <= d and c <= b for a, b in it[3] for c, d in other[3]):
                length = min(other[1], it[1]) - it[0]
                most = max(most, length)
                if length > ERROR and first is None:
                    first = (other[2], it[2], length)
        active.append(it)
    return most, first


def epoch(text):
    return tuple(int(it) for it in text.split("."))


def primaries(logs):
    """The nodes that said that they are the primary of a partition, by partition and epoch."""
    found = {}
    for log in logs:
        for it in log:
            if it.word == "primary":
                found.setdefault((int(it.fields[0]), epoch(it.fields[1])), set()).add(it.node)
    return found


def older_writes(logs):
    """How many entries were accepted, and those in an older epoch than one that the same node promised or accepted."""
    count, faults = 0, []
    for log in logs:
        had = {}
        for it in log:
            if it.word in ("promised", "accepted"):
                partition, now = int(it.fields[0]), epoch(it.fields[1])
                if it.word == "accepted":
                    count += 1
                    if now < had.get(partition, now):
                        faults.append((it.who(), partition, had[partition], now))
                had[partition] = max(now, had.get(partition, now))
    return count, faults


def short_logs(logs):
    """How many reports `primary` came after a committed entry, and those whose log ends before it."""
    committed, last, count, faults = {}, {}, 0, []
    for it in sorted((it for log in logs for it in log), key=lambda it: it.at):
        if it.word in ("adopted", "accepted"):
            key = (it.node, int(it.fields[0]))
            last[key] = int(it.fields[2]) if it.word == "adopted" else max(int(it.fields[2]), last.get(key, 0))
        elif it.word == "committed":
            partition, now = int(it.fields[0]), epoch(it.fields[1])
            committed.setdefault(partition, []).append((now, int(it.fields[2])))
        elif it.word == "primary":
            partition, now = int(it.fields[0]), epoch(it.fields[1])
            earlier = [lsn for at, lsn in committed.get(partition, []) if at < now and at[0] == now[0]]
            if earlier:
                count += 1
                if last.get((it.node, partition), 0) < max(earlier):
                    faults.append((it.who(), partition, now, max(earlier)))
    return count, faults


def checks(paths):
    """What was checked, as pairs of words and whether it is so."""
    logs = [reports(path) for path in paths]
    owns = sum(it.word == "own" for log in logs for it in log)
    most, first = overlaps(holds(logs))
    said = primaries(logs)
    double = [key for key, nodes in said.items() if len(nodes) > 1]
    accepted, older = older_writes(logs)
    later, short = short_logs(logs)
    rows = [
        (f"At each of {owns:,} `own` lines no two nodes held one point; times of day may be off by {ERROR} ms, and the "
         f"longest overlap is {most:.0f} ms", first),
        (f"{len(said)} epochs had a primary, each only one", double),
        (f"{accepted} entries were accepted, none in an older epoch than its node had promised or accepted", older),
        (f"{later} primaries came after a committed entry, and the log of each reached it", short),
    ]
    good = [not first, said and not double, accepted and not older, later and not short]
    return [(text + (f": {faults}" if faults else ""), bool(it)) for (text, faults), it in zip(rows, good)]
