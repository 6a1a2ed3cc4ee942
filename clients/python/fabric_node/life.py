"""The children of a node, one after another: their lines, and the handlers that the lines call."""
import collections
import os
import time
from typing import NamedTuple, Optional

from . import folders
from .child import Child, now
from .errors import FabricError
from .lines import Junk, read_child, read_first, text_of
from .questions import Subject
from .ranges import minus

MAX_FAULT = 200  # signs that are kept of why a child ended
FIRST_PAUSE, LAST_PAUSE = 0.1, 10.0  # seconds before an ended child is started again


class _Event(NamedTuple):
    handler: str
    arguments: tuple = ()
    number: Optional[int] = None  # of which `done` is said once the handler has returned


class Life:
    def __init__(self, words, handlers):
        self._folder = folders.folder_of(words)
        if not folders.hold(self._folder):
            raise FabricError("folder", self._folder)
        self._holds_folder = True
        self.fault = ""  # why the last child ended
        self.child = None
        self.greeted = False  # the child has said its first line
        self.given = {}  # K: what its line gave up, until its `done`
        self.open = {}  # tag: the answer
        self.questions = []
        self.handling = False
        self.over = False  # no child is started any more
        self._stuck = False  # the last `lost` failed, so that what the child gave may still be in use
        # Relative paths in the words mean the same at each start, wherever the service has gone.
        self._words, self._handlers, self._here = words, handlers, os.getcwd()
        self._owned = ()
        self._last_number = 0
        self._events = collections.deque()
        self._due, self._pause = 0.0, FIRST_PAUSE

    def start(self):
        self._last_number = 0
        try:
            self.child = Child(self._words, self._here)
        except OSError as error:
            self.fault = "start: " + error.strerror
            self._wait_longer()

    def _wait_longer(self):
        self._due, self._pause = now() + self._pause, min(2 * self._pause, LAST_PAUSE)

    def turn(self, until):
        """Handles a line that has come, or else waits for one, for an end or for a start. Whether anything happened."""
        self.run_handlers()  # those that an interrupt has left
        if self.take_line():
            return True
        if self.child is None:
            return self._rest(until)
        if self.child.wait(None if until is None else until - now()):
            return self.take_line()
        self.end()
        self.run_handlers()
        return True

    def _rest(self, until):
        if now() >= self._due:
            self.start()
        else:
            time.sleep(max(0.0, min(until, self._due) - now()))
        return False

    def end(self, fault=None):
        """Ends the child. That gives up everything, and ends every open answer with `unknown`."""
        child, self.child = self.child, None
        status = child.end()
        self.fault = (fault or status)[:MAX_FAULT]
        for answer in self.open.values():
            answer.over = answer.cut = True
        self.open.clear()
        for question in self.questions:
            question.void = True
        self._owned = ()
        self.given.clear()
        self._events.clear()
        # A child without its first line gave nothing, so there is nothing to let go of.
        if self.greeted:
            self._events.append(_Event("lost"))
        self.greeted = False
        self._wait_longer()

    def take_line(self):
        """Handles one line, if a whole one has come."""
        raw = self.child.next_line() if self.child is not None else None
        if raw is None:
            return False
        try:
            text = text_of(raw)
            if self.greeted:
                self._hear(*read_child(text))
            else:
                self._greet(text)
        except Junk:
            shown = "".join(chr(byte) if 32 <= byte <= 126 else "?" for byte in raw[:100])
            self.end("junk: " + shown)
        except BaseException:
            # An interrupt. The line may be lost, and with it what it gives up.
            if self.child is not None:
                self.end("interrupted")
            self.run_handlers()
            raise
        self.run_handlers()
        return True

    def _greet(self, text):
        protocol = read_first(text)
        if protocol is None:
            self.end(text)
        elif protocol != 1:
            self.end("protocol: %d" % protocol)
        else:
            self.greeted, self._pause = True, FIRST_PAUSE

    def _hear(self, kind, *said):
        if kind == "report":
            self._hear_report(*said[0])
        elif kind == "given":
            self._hear_given(said[0], *said[1])
        elif said[0] not in self.open:
            raise Junk
        elif kind == "done":
            self.open.pop(said[0]).over = True
        else:
            answer = self.open[said[0]]
            answer.texts.append(said[1])
            answer.words.append(said[2])

    def _hear_report(self, word, *fields):
        if word == "own":
            if minus(self._owned, fields[0]):
                raise Junk  # points are lost by a line with a number only
            self._gain(fields[0])
        elif word in ("primary", "committed"):
            self._events.append(_Event(word, tuple(fields)))
        elif word in ("promised", "adopted"):
            self._void(Subject(partition=fields[0]))

    def _gain(self, ranges):
        more = minus(ranges, self._owned)
        self._owned = ranges
        if more:
            self._events.append(_Event("gained", (more,)))

    def _hear_given(self, number, word, *fields):
        """What the line gives up is given up from here on. Its handler may be called later, if another one runs now."""
        if number != self._last_number + 1:
            raise Junk
        self._last_number = number
        if word == "gave":
            self._owned = minus(self._owned, fields[2])
            self._give_up(number, Subject(ranges=fields[2]), _Event("losing", (fields[2],), number))
        elif word == "own":
            less = minus(self._owned, fields[0])
            self._give_up(number, Subject(ranges=less), _Event("losing", (less,), number))
            self._gain(fields[0])
        elif word == "promised":
            self._give_up(number, Subject(partition=fields[0]), _Event("promised", tuple(fields), number))
        elif word == "left":
            self._owned = ()
            self._give_up(number, Subject(everything=True), _Event("lost", (), number))
        else:
            raise Junk

    def _give_up(self, number, subject, event):
        self.given[number] = subject
        self._void(subject)
        self._events.append(event)

    def _void(self, subject):
        for question in self.questions:
            question.void = question.void or question.is_named_by(subject)

    def run_handlers(self):
        """Calls the handlers of what was heard, in order. While one runs, others wait until it has returned."""
        if self.handling:
            return
        failure = None
        while self._events:
            event = self._events[0]  # it stays there until it is done, so that no interrupt loses it
            self.handling = True
            try:
                getattr(self._handlers, event.handler)(*event.arguments)
            except BaseException as error:
                failure = error if failure is None else failure
                self._fail(event)
            else:
                self._finish(event)
            finally:
                self.handling = False
            if self._events and self._events[0] is event:
                self._events.popleft()
        if self.over and not self._stuck:
            self.let_go()
        if isinstance(failure, Exception):
            raise FabricError("handler", repr(failure)) from failure
        if failure is not None:
            raise failure

    def let_go(self):
        """Another Node may have the folder."""
        if self._holds_folder:
            folders.let_go(self._folder)
        self._holds_folder = False

    def _finish(self, event):
        """Says `done`, unless the child that awaits it has ended meanwhile: then nothing is open."""
        if self.given.pop(event.number, None) is not None:
            self.child.send(b"done %d\n" % event.number)

    def _fail(self, event):
        """Nobody knows what a handler that failed has let go of. So the child ends, and `lost` is called."""
        if self.child is not None:
            self.end("handler: " + event.handler)
        elif event.handler == "lost" and all(other is event for other in self._events):
            self.over = self._stuck = True
