"""usage: bin/draw [FROM TO] [--no-fences] [FILE[@MS] ..] <REPORT >PICTURE.svg

Draws a run: who held what, when it moved, who took over from whom, who was primary.

REPORT is what `fabric replay`, `fabric node` or `fabric cluster` writes, or the log of `fabricd`. FROM and TO cut the
time: ticks of true time, or milliseconds of the process's clock, or milliseconds since the first line of all logs.
Without a FILE the report comes from standard input. Several FILEs are the reports of the processes of one cluster. The
lines of logs have times of day. Other reports count from the start of each process, so their clocks are set by what
they did with each other: flights, take-overs, restarts. FILE@MS says that this process began MS milliseconds after
the first.

The picture is an SVG of at most 2,000,000 bytes, for light and dark, without a script. Each part has a tooltip.
  the ring    Time goes to the right, points go upwards, and each node has its colour. Blank: nobody holds it.
              Striped: it is in flight. A dashed edge: a fence ended the hold. Red: two instances hold it, which
              the rules exclude.
  nodes       Thin: the instance runs. Thick: it holds points. Pale: it left, or no further line of it comes.
              The signs have a legend. An arrow: a flight was taken, so there is a link. Reports say no more of links.
  partitions  A bar for each primary with its epoch. Thin bars for replicas, from their promise on. A bracket for
              each reconfiguration, from the first line of its epoch (no line has the command) to `configured`;
              dashed if it was superseded, or is open. The rising line counts committed entries.
In a short report each step has a width of its own beside the time that passes. A grey bar below says that time does
not pass there; the numbers above are the lines of the steps. What falls together is drawn together, and the picture
says so: FROM TO shows more.

--no-fences   takes no fence from the `own` lines. Use it for a report without the `own` lines of renewals. If it shows
              this (an instance goes on past its fence, or a log has no renewal), fences are left out without this
              word. A log of `fabricd` has renewals with "lines":"all".

A report of at most 2,000,000 lines and 300,000,000 bytes is drawn. Refused, with a message that names the line: a
line that is in no report, a time that falls, a line behind the end, a report that is empty or too long. What follows
the last line feed is left out, and the picture says so. A report that ends with a fault is drawn up to there.

status  0 the picture is written   2 the words are wrong   3 a file cannot be read
        4 the picture cannot be written   6 the report is refused
"""
import re
import sys

from .joined import Window, read_run
from .page import drawn
from .sources import Refused, Source


class Usage(Exception):
    """The words are in no form."""


def words_read(words):
    """FROM and TO, the files with the beginnings of their clocks, and whether fences are wanted."""
    window, files, wants_fences = None, [], True
    if len(words) >= 2 and all(re.fullmatch("[0-9]{1,20}", it, re.A) for it in words[:2]):
        window, words = (int(words[0]), int(words[1])), words[2:]
        if window[0] > window[1]:
            raise Usage("FROM is above TO")
    for word in words:
        if word == "--no-fences":
            wants_fences = False
        elif word.startswith("-"):
            raise Usage(f"no such word: {word}")
        else:
            name, at, begun = word.rpartition("@")
            files.append((name, int(begun)) if at and re.fullmatch("[0-9]{1,15}", begun, re.A) else (word, None))
    return window, files, wants_fences


def draw(words):
    window, files, wants_fences = words_read(words)
    if files:
        sources = [Source(open(name, "rb"), name) for name, _ in files]
    elif sys.stdin is None:
        raise OSError("standard input is closed")
    else:
        sources = [Source(sys.stdin.buffer)]
    given = {i: begun for i, (_, begun) in enumerate(files) if begun is not None}
    if given:
        given.setdefault(0, 0)
    run = read_run(sources, wants_fences, given)
    first, last = window or (run.first, run.last)
    if window and (last < run.first or first > run.last):
        raise Refused(f"the report has nothing from {first:,} to {last:,}: its times are {run.first:,} to {run.last:,}")
    return drawn(run, Window(max(first, run.first), min(last, run.last), window is not None))


def main(words):
    if "--help" in words:
        print(__doc__, end="")
        return 0
    try:
        text = draw(words)
    except Usage as usage:
        print(f"draw: {usage}", *__doc__.splitlines()[:1], sep="\n", file=sys.stderr)
        return 2
    except Refused as refused:
        print(f"draw: {refused}", file=sys.stderr)
        return 6
    except OSError as failed:
        print(f"draw: {failed}", file=sys.stderr)
        return 3
    try:
        if sys.stdout is None:
            raise OSError("standard output is closed")
        sys.stdout.write(text)
        sys.stdout.flush()
    except OSError as failed:
        print(f"draw: the picture cannot be written: {failed}", file=sys.stderr)
        sys.stderr.flush()
        return 4
    return 0
