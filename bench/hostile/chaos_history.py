"""The logs of a chaotic run, joined to transcripts for `fabric audit`, where clocks run at rates of their own.

It goes by the joiner of examples/audited. Beside that, it knows at which rate the clock of each process ran, and when
all processes were killed at once before the ring began again. A transcript has every report but `own` from the start
of the run on; of `own`, those of a window of time, and the last ones before it.
"""
import importlib.machinery
import importlib.util
import os
import subprocess
import sys

HERE = os.path.dirname(os.path.realpath(__file__))
TOP = os.path.dirname(os.path.dirname(HERE))
sys.dont_write_bytecode = True


def load(path):
    loader = importlib.machinery.SourceFileLoader("join", path)
    made = importlib.util.module_from_spec(importlib.util.spec_from_loader("join", loader))
    loader.exec_module(made)
    return made


join = load(os.path.join(TOP, "examples", "audited", "join"))


class Instance(join.Instance):
    """An instance whose clock runs at a rate, in parts of a million."""

    def __init__(self, who, start, rate):
        super().__init__(who)
        self.pace, self.process = 1 + rate / 1e6, (who[0], start)

    def take(self, day, turn, reading, words):
        self.differences.append((day, day - reading / self.pace))
        if not self.turns or self.last != turn:
            self.turns.append(join.Turn(self.who, reading))
            self.last = turn
        self.turns[-1].words.append(words)

    def set_clock(self, others):
        """Its clock was 0 when that of the others of its process was: all of them tell when."""
        super().set_clock()
        self.begun = min(difference for it in others for _, difference in it.differences)
        for it in self.turns:
            it.time = self.begun + it.reading / self.pace

    def reading_at(self, time):
        return int((time - self.begun) * self.pace)


class Clocks(join.Clocks):
    """The readings of all instances that run: after a cut nobody, and where ends are given, nobody who has ended."""

    def __init__(self, instances, cuts, ends):
        super().__init__(instances)
        self.cuts = sorted(cuts)
        self.ends = sorted((at, node) for node, listed in ends.items() for at in listed)

    def take(self, turn, following):
        while self.cuts and self.cuts[0] <= turn.time:
            self.cuts.pop(0)
            self.running.clear()
        while self.ends and self.ends[0][0] <= turn.time:
            _, node = self.ends.pop(0)
            for who in [it for it in self.running if it[0] == node]:
                del self.running[who]
        for who in [it for it in self.running if it[0] == turn.who[0] and it < turn.who]:
            del self.running[who]
        for who, last in self.running.items():
            reading = max(last, self.instances[who].reading_at(turn.time))
            self.running[who] = min(reading, following.get(who, reading))
        self.running[turn.who] = turn.reading
        return " ".join(f"{node}.{number}:{self.running[node, number]}" for node, number in sorted(self.running))


def read_logs(nodes, until):
    """The instances of these nodes, by what they wrote up to this time of day in milliseconds."""
    instances = {}
    for it in nodes:
        if not os.path.exists(it.log):
            continue
        with open(it.log, errors="replace") as file:
            for text in file:
                found = join.LINE.fullmatch(text.rstrip("\n"))
                if not found:
                    continue
                time, turn, node, number, reading, word, rest = found.groups()
                day = round(join.datetime.datetime.fromisoformat(time[:-1] + "+00:00").timestamp() * 1000)
                if day > until:
                    break
                who = int(node), int(number)
                if who not in instances:
                    instances[who] = Instance(who, *it.start_before(day / 1000))
                instances[who].take(day, int(turn), int(reading), word + rest)
    return instances


def thin_out(instances, since):
    """Drops each `own` before this time but the last one of its instance."""
    for it in instances.values():
        last = None
        for turn in it.turns:
            if turn.time >= since:
                break
            owned = [words for words in turn.words if words.startswith("own ")]
            if owned:
                if last is not None:
                    last.words = [words for words in last.words if not words.startswith("own ")]
                last = turn
        it.turns = [turn for turn in it.turns if turn.words]


def write_transcript(path, instances, cuts, ends):
    """The transcript of these instances. Gives its moments, and by how much a turn was moved at most."""
    clocks, moved, moments = Clocks(instances, cuts, ends), 0, 0
    first = min(it.turns[0].time for it in instances.values())
    with open(path, "w") as file:
        file.write("transcript 0\n")
        for moments, (turn, now, following) in enumerate(join.in_order(instances), 1):
            moved = max(moved, now - turn.time)
            file.write(f"{moments} clocks {clocks.take(turn, following)}\n")
            head = f"{moments} {int(now - first)} {turn.who[0]}.{turn.who[1]} {turn.reading} "
            file.writelines(f"{head}{words}\n" for words in turn.words)
    return moments, moved


def verdict(fabric, path):
    with open(path) as given:
        said = subprocess.run([fabric, "audit"], stdin=given, stdout=subprocess.PIPE, text=True)
    return said.stdout.strip() or f"status {said.returncode}"


def audit(fabric, nodes, cuts, path, since, until):
    """What `fabric audit` says of the window: its verdict, the moments, the error of the clocks, how far turns were
    moved, and a breach that is none once the killed hold nothing. A kill may take the lines of a step whose frames have
    gone: then a flight was given of which no log says so, and its giver seems to hold on until its fence.
    """
    instances = read_logs(nodes, until)
    processes = {}
    for it in instances.values():
        processes.setdefault(it.process, []).append(it)
    for it in instances.values():
        it.set_clock(processes[it.process])
    thin_out(instances, since)
    instances = {who: it for who, it in instances.items() if it.turns}
    if not instances:
        return "safe 0", 0, 0, 0, ""
    error = max(it.error for it in instances.values())
    moments, moved = write_transcript(path, instances, cuts, {})
    said, strict = verdict(fabric, path), ""
    if said.startswith("breach"):
        write_transcript(path + "-ended", instances, cuts, {it.number: it.ends for it in nodes})
        strict, said = said, verdict(fabric, path + "-ended")
    return said, moments, error, moved, strict if said.startswith("safe") else ""
