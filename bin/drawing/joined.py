"""A run that is ready to be drawn: one report, or those of several processes, with what is said around the picture."""
from typing import NamedTuple

from .clocks import join, join_by_day
from .lines import day_text
from .run import History
from .sources import Refused
from .svg import counted, thousands


MOST_NOTES = 12


class Window(NamedTuple):
    first: int
    last: int
    is_cut: bool


class Run:
    """What the panels read, and the words of the heading and the notes."""

    def __init__(self, histories, sections, wants_fences, given):
        self.sections = sections
        self.is_running = any(it.is_running for it in sections)
        self.is_dated = any(it.is_dated for it in sections)
        self.has_steps = len(histories) == 1
        self.broken_off = [life for it in histories if len(sections) > 1 for life in broken_off(it)]
        self.day, self.apart = join_by_day(histories) if self.is_dated else (None, 0)
        loose = join(histories, given) if len(histories) > 1 and not self.is_dated else []
        history = histories[0] if histories else History(None)
        if self.is_dated and not history.renewals and any(it.fence is not None for it in history.stretches):
            history.is_filtered = True
        self.first, self.last = history.first or 0, history.last
        self.lives, self.stretches, self.flights = history.lives, history.stretches, history.flights
        self.marks = sorted(history.marks, key=lambda it: it.begins)
        self.partitions, self.steps = history.partitions, history.steps
        self.has_fences = wants_fences and not history.is_filtered
        ends = [it for it in sections if it.closing and it.closing.word == "fault"]
        self.faults = [it.closing for it in ends if not it.is_dated]
        self.alarms = some([alarm_of(it) for it in ends])
        self.title = self.named()
        self.time_label = self.labelled()
        self.notes = [*self.note_fences(history, wants_fences), *self.note_clocks(loose, given), *self.note_ends()]

    def has_lapses(self):
        return self.has_fences and any(it.lapse is not None for it in self.stretches)

    def named(self):
        nodes = len({it.who.split(".")[0] for it in self.lives})
        if not nodes:
            return "No node began"
        what = "A run" if self.is_running else "A schedule"
        return f"{what} of {counted(nodes, 'node')}: who held what"

    def labelled(self):
        if not self.is_running:
            return "true time in ticks (a tick is 1 ms in a running process)"
        if self.is_dated:
            return f"time of day in ms since {day_text(self.day)}" if self.day else "time of day"
        return "time in ms since the first process began" if len(self.sections) > 1 else "the process's clock, in ms"

    def summary(self, window):
        unit = "ms" if self.is_running else "ticks"
        parts = [counted(len(self.lives), "instance")]
        if self.partitions:
            parts.append(counted(len(self.partitions), "partition"))
        parts.append(f"{thousands(self.first)} to {thousands(self.last)} {unit}")
        if window.is_cut:
            parts.append(f"cut: {thousands(window.first)} to {thousands(window.last)}")
        for it in self.sections:
            if it.closing and it.closing.word == "end" and len(self.sections) == 1:
                events = it.closing.fields[0]
                frames = "" if self.is_running else f" and {counted(it.closing.fields[1], 'frame')}"
                parts.append(counted(events, "turn" if self.is_running else "event") + frames)
        return ", ".join(parts)

    def note_fences(self, history, wants_fences):
        if not wants_fences:
            return ["fences are left out, as was asked: a silent instance is drawn as a holder until it is taken over"]
        if history.is_filtered and self.is_dated and not history.renewals:
            return ["fences are left out: the logs have no `own` lines of renewals, as with \"lines\":\"some\""]
        if history.is_filtered:
            return ["fences are left out: an instance went on past its last fence, so `own` lines are missing"]
        if self.stretches and all(it.fence is None and it.lapse is None for it in self.stretches):
            return ["no line has a fence, so none is drawn"]
        if self.has_lapses() and not self.is_running:
            return ["fences are drawn as if clocks ran evenly between two lines, and like true time after the last one"]
        return []

    def note_clocks(self, loose, given):
        if len(self.sections) < 2:
            return []
        if self.is_dated:
            return [f"the lines are put by their times of day: what overlaps by at most {self.apart} ms is not red"]
        notes = []
        if not given:
            notes.append("the clocks of the processes are set by flights, take-overs and restarts, some ms off")
        if loose:
            names = ", ".join(sorted({self.sections[i].source.name or "the input" for i in loose}))
            notes.append(f"nothing ties the clock of {names} to the others: give FILE@MS")
        return notes

    def note_ends(self):
        notes = []
        for it in self.sections:
            name = f"{it.source.name}: " if it.source.name else ""
            if it.cut:
                notes.append(f"{name}the report breaks off in line {it.cut}, which is left out")
            elif it.is_dated:
                if it.ended is None and not it.closing and it is it.source.sections[-1]:
                    notes.append(f"{name}the log has no last line: the process goes on, or was killed")
            elif not it.closing and it is self.sections[-1]:
                notes.append(f"{name}the report has no last line: the process goes on, or was ended")
            notes += some(["at the end " + place_text(place) for place in it.places])
            notes += [f"{name}{text}" for text in event_texts(it.events)]
        return some(notes, 3 * MOST_NOTES)


def broken_off(history):
    """The lives whose process did not say how it ended: it was killed, or it goes on."""
    section = history.section
    if section is None or section.closing or section.ended is not None:
        return []
    return [it for it in history.lives if it.how == "end"]


def alarm_of(section):
    """What a section ends with, in the words for a report or for one log of several."""
    text = f"fault {section.closing.fields[0]}"
    name = f"{section.source.name}: " if section.source.name else ""
    return f"{name}a process ended with: {text}" if section.is_dated else f"the report ends with: {text}"


def event_texts(events):
    """What the log of a service says that a reader of its picture has to know."""
    found = []
    dropped = sum(it.fields[0] for it in events if it.word == "dropped")
    slow = [it.fields[0] for it in events if it.word == "slow"]
    if dropped:
        found.append(f"the log has not all lines: {thousands(dropped)} dropped")
    if slow:
        found.append(f"a turn took {thousands(max(slow))} ms, longer than the grain")
    if any(it.word == "deaf" for it in events):
        found.append("the endpoint failed: the process was deaf for a while")
    stuck = sorted({it.fields[0] for it in events if it.word == "cannot"})
    if stuck:
        found.append("the manager could not heal " + ", ".join(str(it) for it in stuck[:8]))
    return found


def some(texts, most=None):
    """The first few of many texts, and how many more there are."""
    most = most or MOST_NOTES
    return texts if len(texts) <= most else [*texts[:most], f"and {len(texts) - most:,} more such lines"]


def place_text(place):
    """What a report says at its end of the points that nobody holds."""
    shown = [f"{lo:016x}-{hi:016x}" for lo, hi in place.fields[-1]]
    text = ",".join(shown[:3]) + (f" and {len(shown) - 3} more" if len(shown) > 3 else "")
    if place.word == "unheld":
        return f"nobody holds what is with {place.fields[0]}: {text}"
    return f"flight {place.fields[1]} from {place.fields[0]} to {place.fields[2]} is on its way: {text}"


def read_run(sources, wants_fences, given):
    """Reads all sources. `given` has the known beginnings of clocks, by source."""
    histories, sections, begun = [], [], {}
    for i, source in enumerate(sources):
        section = None
        for belongs, time, line in source:
            if belongs is not section:
                section = belongs
                if i in given and i not in begun.values():
                    begun[len(histories)] = i
                histories.append(History(section))
            histories[-1].take(time, line)
        sections += source.sections
    for it in histories:
        it.close()
    dated = {it.is_dated for it in sections if it.is_running is not None}
    if len(dated) > 1:
        raise Refused("some of the reports have times of day, and some have none")
    if given and dated == {True}:
        raise Refused("FILE@MS is for reports without times of day")
    if len(histories) > 1 and any(not it.section.is_running for it in histories):
        raise Refused("several reports are joined only where they are of running processes, without true times")
    return Run(histories, sections, wants_fences, {at: given[i] for at, i in begun.items()})
