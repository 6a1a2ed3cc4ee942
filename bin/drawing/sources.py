"""A whole report: its lines in their order, its limits, and the clear answer where it is none."""
from .lines import BadLine, Closing, Event, read_line

MAX_LINES = 2_000_000
MAX_BYTES = 300_000_000
# The longest line there can be: `units` of 65,536 partitions.
MAX_LINE_BYTES = 500_000


class Refused(Exception):
    """No picture can be drawn. The text says why, and names the line."""


class Section:
    """What one process reported, or a whole schedule: how it began, where it ended, and what it says at its end.

    In the log of a service each line `is_dated`: its time of day is its time. `events` has what such a log says beside
    reports, and `ended` is the time at which the process ended by order.
    """

    def __init__(self, source):
        self.source = source
        self.is_running = None
        self.is_dated = False
        self.time = None
        self.turn = 0
        self.places = []
        self.closing = None
        self.cut = None
        self.events = []
        self.ended = None

    def note(self, event):
        """Takes a line that is no report."""
        if self.is_running is None:
            self.is_running = self.is_dated = True
        elif not self.is_dated:
            raise Refused("has a time of day, unlike those before")
        if event.word == "end":
            self.ended = event.day
        self.events.append(event)

    def see(self, line):
        """Takes the time of a line. The clock of a process, as true time, never falls."""
        is_running, is_dated = line.time is None, line.day is not None
        if self.is_running is None:
            self.is_running, self.is_dated = is_running, is_dated
        elif self.is_running != is_running:
            has = "no true time" if is_running else "a true time"
            raise Refused(f"has {has}, unlike those before")
        elif self.is_dated != is_dated:
            raise Refused(f"has {'a' if is_dated else 'no'} time of day, unlike those before")
        time = line.day if is_dated else line.reading if is_running else line.time
        if time is None:
            time = self.time or 0
        if self.time is not None and time < self.time:
            hint = "; give the reports of several processes as several files" if is_running else ""
            raise Refused(f"goes back in time, from {self.time} to {time}{hint}")
        self.time, self.turn = time, line.turn
        return time

    def is_begun_anew_by(self, line):
        """Whether another process or instance wrote this line: its turns begin anew, or it says so."""
        if isinstance(line, Event):
            is_new = self.time is None and self.closing is None and all(it.word != "begin" for it in self.events)
            return line.word == "begin" and not is_new
        return line.time is None and line.turn == 0 and (self.closing is not None or self.turn > 0)


class Source:
    """A stream of bytes that is a report. Iterating gives (section, time, line) for each reported line."""

    def __init__(self, stream, name=None):
        self.stream = stream
        self.name = name
        self.lines = 0
        self.bytes = 0
        self.day = 0
        self.sections = []

    def refuse(self, what):
        where = f"{self.name}: " if self.name else ""
        raise Refused(f"{where}line {self.lines} {what}")

    def texts(self):
        """The whole lines. What stands behind the last line feed is the begin of a line, which nobody can judge."""
        while True:
            raw = self.stream.readline(MAX_LINE_BYTES)
            if not raw:
                return
            self.lines += 1
            self.bytes += len(raw)
            if self.lines > MAX_LINES:
                self.refuse(f"is one too many: a picture is drawn of at most {MAX_LINES:,} lines")
            if self.bytes > MAX_BYTES:
                self.refuse(f"ends too late: a picture is drawn of at most {MAX_BYTES:,} bytes")
            if raw[-1:] == b"\n":
                yield raw[:-1].decode("latin-1")
            elif len(raw) == MAX_LINE_BYTES:
                self.refuse("is no line of a report: it is too long")
            else:
                self.sections = self.sections or [Section(self)]
                self.sections[-1].cut = self.lines

    def __iter__(self):
        section = None
        for text in self.texts():
            try:
                line = read_line(text)
            except BadLine:
                shown = text if len(text) <= 60 else text[:60] + ".."
                self.refuse(f"is no line of a report: {shown!r}")
            if section is None or not isinstance(line, Closing) and section.is_begun_anew_by(line):
                section = Section(self)
                self.sections.append(section)
            if not isinstance(line, Closing) and line.day is not None:
                self.see_day(line.day)
            if isinstance(line, Closing):
                self.close(section, line)
            elif isinstance(line, Event):
                self.note(section, line)
            elif section.closing or section.places or section.ended is not None:
                self.refuse("comes after the end of the report")
            else:
                yield section, self.time_of(section, line), line
        if not self.lines:
            raise Refused(f"{self.name + ': ' if self.name else ''}the report is empty")

    def see_day(self, day):
        """The time of day never falls in a log, from one process to the next either."""
        if day < self.day:
            self.refuse(f"goes back in time, by {self.day - day} ms of the time of day")
        self.day = day

    def note(self, section, event):
        try:
            section.note(event)
        except Refused as refused:
            self.refuse(str(refused))

    def time_of(self, section, line):
        try:
            return section.see(line)
        except Refused as refused:
            self.refuse(str(refused))

    def close(self, section, line):
        if section.closing:
            self.refuse("comes after the end of the report")
        if line.word == "end" and section.is_running is not None and section.is_running != (len(line.fields) == 1):
            self.refuse("is the end of another kind of report")
        if line.word in ("end", "fault"):
            section.closing = line
        else:
            section.places.append(line)
