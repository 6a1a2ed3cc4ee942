"""A node as a child process: what a service calls."""
import threading
from typing import NamedTuple

from .child import now
from .errors import FabricError
from .life import Life
from .lines import Epoch
from .questions import Open, Question

HANDLERS = ("gained", "losing", "lost", "primary", "promised", "committed")
MAX_ASKED = 4096  # bytes of a line with its tag, without its line feed
PAGE = 64  # entries of one answer
MAX_ENTRIES = 100000  # entries of a log


class Answer(NamedTuple):
    lines: tuple  # the words of each line, without the tag


class Entry(NamedTuple):
    epoch: Epoch
    lsn: int
    text: bytes


def _within(value, least, most):
    if not isinstance(value, int) or not least <= value <= most:
        raise FabricError("line", "%r is not from %d to %d" % (value, least, most))
    return value


class Node:
    """One node of the fabric. Its calls and its handlers belong to the thread that made it."""

    def __init__(self, words, handlers):
        """Starts the child, and waits for its first line."""
        if not words or not all(callable(getattr(handlers, name, None)) for name in HANDLERS):
            raise FabricError("misuse", "words and all six handlers are needed")
        self._thread = threading.get_ident()
        self._life = Life(list(words), handlers)
        self._tag = 0
        try:
            self._start()
        except BaseException:
            self._life.let_go()
            raise

    def _start(self):
        life = self._life
        life.start()
        try:
            while life.child is not None and not life.greeted:
                life.turn(None)
        except BaseException:
            if life.child is not None:
                life.end()
            raise
        if life.child is None:
            name = life.fault.split(":")[0]
            raise FabricError(name if name in ("junk", "protocol") else "start", life.fault)

    def __enter__(self):
        return self

    def __exit__(self, *error):
        self.close()

    @property
    def fault(self):
        """Why the last child ended: its fault line, its status, or what it did wrong. Empty before that."""
        return self._life.fault

    def ask(self, line):
        """Sends one request, and returns its answer at `done`."""
        return Answer(tuple(self._ask(line).texts))

    def write(self, partition, text):
        """Adds an entry, and returns its number once it is committed."""
        raw = text.encode("utf-8") if isinstance(text, str) else bytes(text)
        if not 1 <= len(raw) <= 512:
            raise FabricError("line", "a text has 1 to 512 bytes")
        answer = self._ask(b"write %d %s" % (_within(partition, 0, 65535), raw))
        accepted = [words for words in answer.words if words[:2] == ["accepted", partition]]
        for word, *fields in answer.words:
            if accepted and word == "committed" and fields[:2] == accepted[0][1:3] and fields[2] >= accepted[0][3]:
                return accepted[0][3]
        raise FabricError("unknown", "the answer has no commit", answer.texts)

    def log(self, partition, first=1):
        """The entries of the own replica from the number `first` on."""
        _within(partition, 0, 65535)
        _within(first, 1, MAX_ENTRIES)
        while True:
            with Question(self._life.questions, partition=partition) as question:
                entries = self._pages(partition, first)
            # A replica that promised or adopted meanwhile may have another log, and the pages would be of two.
            if not question.void:
                return entries

    def holds(self, point):
        """For how many seconds from now on the point may be served; 0 if it is not held."""
        text = "hold %016x" % _within(point, 0, 2**64 - 1)
        with Question(self._life.questions, point=point) as question:
            sent = now()  # before it is sent: what passes between then and the child's reading makes the span shorter
            words = self._answer_now(question, text)
            if words[:2] != ["held", point]:
                return 0.0
            return max(0.0, words[2] / 1000 - (now() - sent))

    def leads(self, partition):
        """The epoch in which the own replica is primary, or None."""
        text = "lead %d" % _within(partition, 0, 65535)
        with Question(self._life.questions, partition=partition) as question:
            words = self._answer_now(question, text)
            return words[2] if words[:2] == ["leads", partition] else None

    def poll(self, seconds):
        """Calls the handlers of what has come. Returns once anything happened, after so many seconds at the latest.

        It alone starts a child again, so a service that never polls has one child at most.
        """
        life = self._enter()
        if life.handling:
            raise FabricError("misuse", "poll in a handler")
        if life.over:
            raise FabricError("ended", life.fault)
        until = now() + max(0.0, seconds)
        while not life.turn(until) and now() < until:
            pass
        while life.take_line():
            pass

    def descriptor(self):
        """What to wait for, beside others, between two polls: readable once lines have come. None if no child runs.

        The next child has another one. Poll before each wait, since lines may have been read along with an answer.
        """
        life = self._enter()
        return None if life.child is None else life.child.descriptor()

    def close(self):
        """Closes the child's standard input, waits for its end, and starts no other."""
        life = self._enter()
        life.over = True
        if life.child is not None:
            life.child.close()
            life.end()
        life.run_handlers()

    def _enter(self):
        if threading.get_ident() != self._thread:
            raise FabricError("misuse", "a call from another thread")
        return self._life

    def _ask(self, line):
        life = self._enter()
        raw = line.encode("utf-8") if isinstance(line, str) else bytes(line)
        tag = (self._tag + 1) % 2**32
        asked = b"@%d %s" % (tag, raw)
        if not raw or any(not 32 <= byte <= 126 for byte in raw):
            raise FabricError("line", "a line has bytes from blank to ~")
        if len(asked) > MAX_ASKED:
            raise FabricError("large", "%d bytes" % len(asked))
        if not life.greeted:
            raise FabricError("ended", life.fault)
        answer = life.open[tag] = Open()
        self._tag = tag
        life.child.send(asked + b"\n")
        while not answer.over:
            life.turn(None)
        answer.check()
        return answer

    def _answer_now(self, question, text):
        """The words of an answer of one line, or none where the answer is void. Without a child nothing is asked."""
        life = self._enter()
        if not life.greeted or any(map(question.is_named_by, life.given.values())):
            return []
        try:
            words = self._ask(text).words
        except FabricError as error:
            if error.name == "unknown":
                return []
            raise
        return [] if question.void or len(words) != 1 else words[0]

    def _pages(self, partition, first):
        entries = []
        while first + len(entries) <= MAX_ENTRIES:
            answer = self._ask("log %d %d %d" % (partition, first + len(entries), PAGE))
            for words in answer.words:
                if words[:2] != ["entry", partition] or words[3] != first + len(entries):
                    raise self._distrust(answer)
                entries.append(Entry(*words[2:]))
            if len(answer.words) < PAGE:
                break
        return entries

    def _distrust(self, answer):
        """Ends a child whose answer is no answer to its question, and makes the error of it."""
        if self._life.child is not None:
            self._life.end("junk: an answer to another question")
        self._life.run_handlers()
        return FabricError("unknown", self._life.fault, answer.texts)
