"""What the lines say of one partition: primaries, replicas, reconfigurations, committed entries."""
from .lines import epoch_text
from .spans import Change, Commit, Mark, Tenure


class Partition:
    def __init__(self, number):
        self.number = number
        self.primaries = []
        self.replicas = []
        self.promises = []
        self.changes = {}
        self.commits = []
        self.is_leading = {}
        self.is_member = {}

    def spans(self):
        return [*self.primaries, *self.replicas, *self.promises, *self.changes.values(), *self.commits]

    def take(self, when, line):
        """A report about this partition.

        The first line of an epoch begins its reconfiguration, as far as a report can know.
        """
        word, who, epoch = line.word, line.who, line.fields[1]
        if word == "superseded":
            self.supersede(when, epoch)
            return
        if epoch not in self.changes:
            self.changes[epoch] = Change(when, epoch)
        if word == "configured":
            self.changes[epoch].ends, self.changes[epoch].how = when, "configured"
        elif word == "committed":
            self.commits.append(Commit(when, epoch, line.fields[2]))
        elif word == "primary":
            self.end_tenure(self.is_leading, who, when)
            self.is_leading[who] = Tenure(when, who, epoch)
            self.primaries.append(self.is_leading[who])
        if word in ("promised", "adopted", "accepted", "primary"):
            self.see_replica(when, line, who, epoch)

    def see_replica(self, when, line, who, epoch):
        """A replica takes part in an epoch from its promise on. What it was in an earlier one ends then."""
        if line.word == "promised":
            text = f"{who} promised {line.fields[0]} {epoch_text(epoch)}"
            self.promises.append(Mark(when, "promised", who, text, line.turn))
        replica, leading = self.is_member.get(who), self.is_leading.get(who)
        if leading and leading.epoch < epoch:
            self.end_tenure(self.is_leading, who, when)
        if replica is None or replica.epoch < epoch:
            self.end_tenure(self.is_member, who, when)
            self.is_member[who] = Tenure(when, who, epoch)
            self.replicas.append(self.is_member[who])

    def supersede(self, when, epoch):
        """A `superseded` names the epoch that was met.

        What it ends is the newest open reconfiguration below it, or its own.
        """
        begun = [it for it in self.changes.values() if it.ends is None and it.epoch <= epoch]
        if begun:
            ended = max(begun, key=lambda it: (it.epoch < epoch, it.epoch))
            ended.ends, ended.how = when, "superseded"

    def end_tenure(self, kept, who, when):
        if who in kept:
            kept.pop(who).ends = when

    def end_instance(self, who, when):
        """It stopped or left: it has no role any more."""
        self.end_tenure(self.is_leading, who, when)
        self.end_tenure(self.is_member, who, when)

    def close(self, when):
        for it in [*self.primaries, *self.replicas, *self.changes.values()]:
            it.ends = it.ends or when
        for it in self.changes.values():
            it.how = it.how or "open"

    def join(self, other):
        """Takes what other processes reported of the same partition."""
        self.primaries += other.primaries
        self.replicas += other.replicas
        self.promises += other.promises
        self.commits += other.commits
        for epoch, theirs in other.changes.items():
            ours = self.changes.setdefault(epoch, theirs)
            if ours is not theirs:
                ours.join(theirs)
        self.commits.sort(key=lambda it: it.begins)
