"""One line of a report: its fields, and whether it could have been printed. The grammar is in docs/formats.md."""
import datetime
import re
from typing import NamedTuple, Optional, Tuple

LONG = 1 << 64
COUNTER = 1 << 32
RING = 1 << 64

Ranges = Tuple[Tuple[int, int], ...]


class BadLine(Exception):
    """The bytes are no line of a report."""


class Line(NamedTuple):
    """What an instance reported:

    `word` with the fields behind it. `time` is None in the report of a running process. `day` is the time of day in
    milliseconds, where the line is of the log of a service.
    """

    turn: int
    time: Optional[int]
    who: str
    reading: Optional[int]
    word: str
    fields: tuple
    day: Optional[int] = None


class Closing(NamedTuple):
    """A line behind the reports: `unheld`, `flight`, `end` or `fault`, with its fields."""

    word: str
    fields: tuple


class Event(NamedTuple):
    """A line of the log of a service that is no report, with its time of day."""

    day: int
    word: str
    fields: tuple


def below(limit):
    def read(text):
        number = int(text)
        if number >= limit:
            raise BadLine
        return number

    return read


long, counter, partition, domains = below(LONG), below(COUNTER), below(65536), below(256)


def optional_long(text):
    return None if text == "-" else long(text)


def who(text):
    if "." in text:
        counter(text[text.index(".") + 1:])
    return text


def epoch(text):
    loss, configuration = text.split(".")
    return counter(loss), counter(configuration)


_known_ranges = {"-": ()}


def ranges(text) -> Ranges:
    """The intervals of a range set: rising, with a missing point between neighbours.

    Runs repeat a few texts many times.
    """
    found = _known_ranges.get(text)
    if found is None:
        found = tuple((int(it[:16], 16), int(it[17:], 16)) for it in text.split(","))
        last = -2
        for lo, hi in found:
            if lo > hi or lo <= last + 1:
                raise BadLine
            last = hi
        if len(_known_ranges) > 100_000:
            _known_ranges.clear()
            _known_ranges["-"] = ()
        _known_ranges[text] = found
    return found


def partitions(text):
    return () if text == "-" else tuple(partition(it) for it in text.split(","))


def as_it_is(text):
    return text


NUMBER = r"(?:0|[1-9][0-9]{0,19})"
NODE = r"[1-9][0-9]{0,2}"
WHO = rf"(?:{NODE}\.[1-9][0-9]{{0,9}}|a[1-9])"
POINT = r"[0-9a-f]{16}"
INTERVAL = rf"{POINT}-{POINT}"
NAME = r"[!-+\--~]{1,64}"

# How each kind of field is spelled, and how it is read.
KINDS = {
    "RANGES": (rf"-|{INTERVAL}(?:,{INTERVAL}){{0,31}}", ranges),
    "WHO": (WHO, who),
    "FENCE": (rf"-|{NUMBER}", optional_long),
    "LONG": (NUMBER, long),
    "N": (NUMBER, counter),
    "P": (NUMBER, partition),
    "E": (rf"{NUMBER}\.{NUMBER}", epoch),
    "POINT": (POINT, as_it_is),
    "WHY": ("fence|lost|counters|accused", as_it_is),
    "NAME": (NAME, as_it_is),
    "VALUE": ("[ -~]{1,400}", as_it_is),
    "PARTITIONS": (rf"-|{NUMBER}(?:,{NUMBER})*", partitions),
    "VERB": ("link|part|give|join|create|swap|heal|lose|write|resolve|names", as_it_is),
    "REASON": (
        "notrouting|full|linked|notlinked|busy|toomany|empty|notmanager|exists|nounit|notmember|notprimary|notready"
        "|counters",
        as_it_is,
    ),
    "DOMAINS": (NUMBER, domains),
    "FIELD": ("[a-z_]+", as_it_is),
    "TEXT": ("[!-~]{1,100}", as_it_is),
}


def form(text):
    """The pattern of some fields, and how each is read.

    A word in capitals is a field, another one is written as it is.
    """
    readers = []

    def field(found):
        pattern, read = KINDS[found[0]]
        readers.append(read)
        return f"({pattern})"

    return re.compile(re.sub(r"[A-Z]+", field, text)), readers


WORDS = {
    word: [form(text) for text in texts]
    for word, texts in {
        "own": ["RANGES FENCE"],
        "accused": ["WHO"],
        "discharged": ["WHO"],
        "heir": ["WHO LONG"],
        "tookover": ["WHO RANGES"],
        "gave": ["WHO N RANGES"],
        "took": ["WHO N RANGES"],
        "returned": ["WHO N RANGES"],
        "left": ["WHY"],
        "stopped": [""],
        "found": ["POINT WHO"],
        "nowhere": ["POINT"],
        "sent": ["N-N"],
        "promised": ["P E"],
        "adopted": ["P E N"],
        "accepted": ["P E N"],
        "primary": ["P E"],
        "committed": ["P E N"],
        "configured": ["P E"],
        "superseded": ["P E"],
        "units": ["PARTITIONS"],
        "resolved": ["P NAME VALUE"],
        "unresolved": ["P NAME"],
        "names": ["P", rf"P {NAME}(?:,{NAME}){{0,63}}"],
        "refused": ["VERB REASON", "VERB toofew DOMAINS"],
    }.items()
}

CLOSINGS = {
    word: [form(text) for text in texts]
    for word, texts in {
        "unheld": ["WHO RANGES"],
        "flight": ["WHO N WHO RANGES"],
        "end": ["LONG LONG", "LONG"],
        "fault": [
            "usage", "read", "config not json", "config missing FIELD", "config range FIELD LONG",
            "config repeated LONG", "line LONG", "drift LONG", "nosuch LONG", "large LONG", "keep", "link",
            "clock LONG LONG", "record LONG", "table", "service FIELD", "folder FIELD", "address TEXT", "key", "door",
            "page", "silent",
        ],
    }.items()
}

EVENTS = {
    word: [form(text) for text in texts]
    for word, texts in {
        "begin": ["WHO"],
        "unsealed": [""],
        "again": ["passed"],
        "listening": ["TEXT"],
        "slow": ["LONG"],
        "deaf": [""],
        "dropped": ["LONG"],
        "cannot": ["heal P"],
        "leaving": [""],
        "end": [""],
    }.items()
}

HEAD = re.compile(rf"({NUMBER}) (-|{NUMBER}) ({WHO}) (-|{NUMBER}) ([a-z]+)(?: (.*))?", re.S)


def fields_of(forms, text):
    for pattern, readers in forms:
        found = pattern.fullmatch(text)
        if found:
            return tuple([read(it) for read, it in zip(readers, found.groups())])
    raise BadLine


DAY_BYTES = len("2026-11-29T19:17:59.123Z ")
_known_dates = {}


def day_of(text):
    """The time of day in front of a line of a log, in milliseconds, or None where there is none."""
    if text[10:11] != "T" or text[23:25] != "Z ":
        return None
    try:
        if text[:10] not in _known_dates:
            _known_dates[text[:10]] = datetime.date.fromisoformat(text[:10]).toordinal()
        time = datetime.time.fromisoformat(text[11:23])
    except ValueError:
        return None
    seconds = ((_known_dates[text[:10]] * 24 + time.hour) * 60 + time.minute) * 60 + time.second
    return 1000 * seconds + time.microsecond // 1000


def day_text(day):
    """A time of day in milliseconds as a log has it."""
    date = datetime.date.fromordinal(day // 86_400_000).isoformat()
    seconds, milliseconds = divmod(day % 86_400_000, 1000)
    return f"{date}T{seconds // 3600:02}:{seconds // 60 % 60:02}:{seconds % 60:02}.{milliseconds:03}Z"


def read_dated(day, text):
    """A line of the log of a service, without its time of day: a Line or an Event."""
    if HEAD.fullmatch(text):
        return read_line(text)._replace(day=day)
    word, _, rest = text.partition(" ")
    if word not in EVENTS:
        raise BadLine
    return Event(day, word, fields_of(EVENTS[word], rest))


def read_line(text):
    """Reads a line without its line feed: a Line, a Closing or an Event. Anything else raises BadLine."""
    day = day_of(text)
    if day is not None:
        return read_dated(day, text[DAY_BYTES:])
    found = HEAD.fullmatch(text)
    if found:
        turn, time, reporter, reading, word, rest = found.groups()
        if word not in WORDS or (reading == "-") != (reporter[0] == "a") or (rest is None) != (word == "stopped"):
            raise BadLine
        fields = fields_of(WORDS[word], rest or "")
        return Line(long(turn), optional_long(time), who(reporter), optional_long(reading), word, fields)
    word, _, rest = text.partition(" ")
    if word not in CLOSINGS:
        raise BadLine
    fields = fields_of(CLOSINGS[word], rest)
    return Closing(word, (rest,) if word == "fault" else fields)


def node_of(text):
    """The number of an instance's node. Arbitrators come behind all nodes."""
    return 1000 + int(text[1:]) if text[0] == "a" else int(text[:text.index(".")])


def order_of(text):
    """Instances in the order of their nodes, and of their starts."""
    return (node_of(text), 0 if text[0] == "a" else int(text[text.index(".") + 1:]))


def epoch_text(it):
    return f"{it[0]}.{it[1]}"
