"""Where point 0 was lost in a simulated run, by its reports and faults. Used by `policy`."""
import re

FIRST = re.compile(r"(^|,)0000000000000000-")


class Loss:
    """Follows point 0 from place to place, and who may bring it back."""

    def __init__(self):
        self.place, self.since, self.flight = "1.1", 0, None  # who has it, or nobody while it is in flight
        self.alive, self.dead, self.heirs, self.accusers, self.taken = {}, {}, {}, {}, {}

    def take(self, line):
        words = line.split()
        if len(words) > 2 and words[1] == "began:":
            number = int(words[3])
            self.alive[number] = self.alive.get(number, 0) + 1
        elif len(words) > 2 and words[1] == "killed:":
            number = int(words[3])
            self.end(f"{number}.{self.alive.get(number, 1)}", int(words[0]), "killed")
        elif len(words) > 4 and words[0] == "0":
            self.report(int(words[1]), words[2], words[4], words[5:])

    def end(self, who, time, how):
        self.dead.setdefault(who, (time, how))

    def move(self, who, time):
        self.place, self.since, self.flight = who, time, None

    def report(self, time, who, word, rest):
        has = bool(rest) and any(FIRST.search(it) for it in rest)
        if word == "left":
            self.end(who, time, "left " + rest[0])
            if int(who.split(".")[0]) in self.alive:
                self.alive[int(who.split(".")[0])] = int(who.split(".")[1])
        elif word == "accused":
            self.accusers.setdefault(rest[0], {})[who] = time
        elif word == "heir":
            self.heirs[rest[0]] = who, time
        elif word == "gave" and has:
            self.place, self.since, self.flight = None, time, (who, rest[0])
        elif word in ("took", "returned", "tookover") and has:
            self.move(who, time)
        elif word == "tookover":
            self.taken[rest[0]] = who, time
        elif word == "own" and has and self.place is not None and self.place not in self.dead:
            self.move(who, time)

    def fate(self, who):
        if who not in self.dead:
            return f"{who} runs"
        time, how = self.dead[who]
        return f"{who} was {how} at {time}" if how == "killed" else f"{who} {how} at {time}"

    def reason(self):
        if self.flight:
            return "in flight between two nodes of which one ended, or both"
        if self.place not in self.dead:
            return "with an instance that runs"
        heir = self.heirs.get(self.place)
        if self.place in self.taken:
            return "its heir took over a record that lacks it: it had come to its holder after that"
        if heir:
            has_ended = heir[0] in self.dead
            return "its heir ended before it took over" if has_ended else "its heir runs, and has not taken over"
        accusers = self.accusers.get(self.place, {})
        if not accusers:
            return "nobody that outlived its holder had a link with it"
        if all(it in self.dead for it in accusers):
            return "all who had accused its holder ended"
        return "no heir was agreed upon: the votes were split, or the arbitrators did not answer in time"

    def said(self):
        """In words, with the times of the run."""
        if self.flight:
            giver, receiver = self.flight
            fates = f"{self.fate(giver)}, {self.fate(receiver)}"
            return f"{self.reason()}: {giver} gave it to {receiver} at {self.since}; {fates}"
        text = f"{self.reason()}: {self.place} had it from {self.since} on, {self.fate(self.place)}"
        heir, accusers = self.heirs.get(self.place), self.accusers.get(self.place, {})
        if accusers:
            text += "; accused by " + ", ".join(f"{who} at {time} ({self.fate(who)})" for who, time in accusers.items())
        if heir:
            text += f"; heir was {heir[0]} from {heir[1]} on, {self.fate(heir[0])}"
        return text
