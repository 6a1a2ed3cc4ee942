"""What a picture shows, each from a moment to a moment. A moment is a time and the number of a step at this time."""
from typing import Optional, Tuple

from .lines import Ranges

Moment = Tuple[int, int]

# The step of a moment behind the last line.
AFTER_ALL = 1 << 60


class Span:
    """`ends` is None while nothing has ended it."""

    __slots__ = ("begins", "ends")

    def __init__(self, begins: Moment, ends: Optional[Moment] = None):
        self.begins = begins
        self.ends = ends

    def move(self, ticks):
        """Puts it on another clock."""
        self.begins = (self.begins[0] + ticks, self.begins[1])
        if self.ends is not None:
            self.ends = (self.ends[0] + ticks, self.ends[1])


class Stretch(Span):
    """An instance owns these ranges.

    It holds them up to `lapse`, the time at which its clock reached its fence, if it did.
    """

    __slots__ = ("who", "ranges", "fence", "lapse")

    def __init__(self, begins, who, ranges: Ranges):
        super().__init__(begins)
        self.who, self.ranges, self.fence, self.lapse = who, ranges, None, None

    def move(self, ticks):
        super().move(ticks)
        if self.lapse is not None:
            self.lapse += ticks


class Life(Span):
    """An instance runs.

    `left` is when it left the ring, `heard` its last line, `how` what ended it: `stopped`, or the report.
    """

    __slots__ = ("who", "left", "heard", "how")

    def __init__(self, begins, who):
        super().__init__(begins)
        self.who, self.left, self.heard, self.how = who, None, begins, None

    def move(self, ticks):
        super().move(ticks)
        self.heard = (self.heard[0] + ticks, self.heard[1])
        if self.left is not None:
            self.left = (self.left[0] + ticks, self.left[1])


class Flight(Span):
    """Ranges on their way. A report may have only one end of it: then `begins` or `ends` is None."""

    __slots__ = ("giver", "number", "receiver", "ranges", "how")

    def __init__(self, giver, number, receiver, ranges):
        super().__init__(None)
        self.giver, self.number, self.receiver, self.ranges, self.how = giver, number, receiver, ranges, None

    def move(self, ticks):
        if self.begins is not None:
            self.begins = (self.begins[0] + ticks, self.begins[1])
        if self.ends is not None:
            self.ends = (self.ends[0] + ticks, self.ends[1])

    def land(self, when, how):
        """The receiver's word counts more than the giver's: what was taken cannot come back."""
        if self.ends is None or how == "took":
            self.ends, self.how = when, how

    def join(self, other):
        """Takes what another process reported of the same flight."""
        self.begins = self.begins or other.begins
        if other.ends is not None:
            self.land(other.ends, other.how)


class Mark(Span):
    """Something happened to `who`. `place` has the ranges that it is about, where they are known."""

    __slots__ = ("kind", "who", "text", "place", "line")

    def __init__(self, at, kind, who, text, line, place=()):
        super().__init__(at, at)
        self.kind, self.who, self.text, self.line, self.place = kind, who, text, line, place


class Tenure(Span):
    """An instance has a replica of a partition in an epoch, or is its primary."""

    __slots__ = ("who", "epoch")

    def __init__(self, begins, who, epoch):
        super().__init__(begins)
        self.who, self.epoch = who, epoch


class Change(Span):
    """A reconfiguration: from the first line that names its epoch to `configured` or `superseded`."""

    __slots__ = ("epoch", "how")

    def __init__(self, begins, epoch):
        super().__init__(begins)
        self.epoch, self.how = epoch, None

    def join(self, other):
        """Takes what another process reported of the same epoch. Only the manager says how it ended."""
        self.begins = min(self.begins, other.begins)
        if self.how == other.how:
            self.ends = max(self.ends, other.ends)
        elif self.how == "open":
            self.ends, self.how = other.ends, other.how


class Commit(Span):
    """All entries up to `lsn` are committed."""

    __slots__ = ("epoch", "lsn")

    def __init__(self, at, epoch, lsn):
        super().__init__(at, at)
        self.epoch, self.lsn = epoch, lsn
