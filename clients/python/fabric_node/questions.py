"""What is asked and what is given up, so that no answer is used that a later line has made void."""
from typing import NamedTuple, Optional

from .errors import FabricError
from .ranges import has


class Subject(NamedTuple):
    """What a line gives up: points, a partition, or everything."""

    ranges: tuple = ()
    partition: Optional[int] = None
    everything: bool = False


class Question:
    """A question about a point or a partition. Its answer is void once a line came that gives that up."""

    def __init__(self, asked, point=None, partition=None):
        self._asked = asked  # the questions that are asked now
        self.point, self.partition, self.void = point, partition, False

    def is_named_by(self, subject):
        if self.point is not None and has(subject.ranges, self.point):
            return True
        return subject.everything or (self.partition is not None and self.partition == subject.partition)

    def __enter__(self):
        self._asked.append(self)
        return self

    def __exit__(self, *error):
        self._asked.remove(self)


class Open:
    """An answer that is open, or has ended: what is read of it so far."""

    def __init__(self):
        self.texts, self.words = [], []
        self.over = False
        self.cut = False  # the child ended before its `done`

    def check(self):
        """Raises the error that the answer says, by its name."""
        if self.cut:
            raise FabricError("unknown", "the child has ended", self.texts)
        for text, words in zip(self.texts, self.words):
            if words[0] in ("late", "unknown"):
                raise FabricError(words[0], "", self.texts)
            if words[0] == "fault":
                raise FabricError(text.split(" ")[1], "", self.texts)
            if words[0] == "refused":
                raise FabricError("refused", text.split(" ", 5)[5], self.texts)
