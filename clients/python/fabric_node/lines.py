"""The lines of a child. What is no line of the grammar is refused, since a client must not guess.

The forms are those of docs/service.md and docs/formats.md. `%` and a letter is a field, and the C client has the same
table. A field is matched by its pattern, and then read: its reader refuses what is out of range.
"""
import re
from typing import NamedTuple


class Epoch(NamedTuple):
    """The number of data losses, then the number of configurations. Later epochs are greater."""

    data_loss: int
    configuration: int

    def __str__(self):
        return "%d.%d" % self


class Junk(Exception):
    """The child wrote bytes that are no line of the grammar, or a line that may not come now."""


MAX_LINE = 65536  # bytes of a line of the child, without its line feed


def number(least, most):
    def read(text):
        value = int(text)
        if not least <= value <= most:
            raise Junk
        return value

    return read


_SHORT, _LONG, _PARTITION = number(0, 2**32 - 1), number(0, 2**64 - 1), number(0, 65535)
_INSTANCE = number(1, 2**32 - 1)


def _epoch(text):
    data_loss, configuration = text.split(".")
    return Epoch(_SHORT(data_loss), _SHORT(configuration))


def _who(text):
    if not text.startswith("a"):
        _INSTANCE(text.split(".")[1])
    return text


def _ranges(text):
    """At most 32 intervals, rising, with a point missing between neighbours."""
    pairs = [] if text == "-" else [part.split("-") for part in text.split(",")]
    ranges = tuple((int(lo, 16), int(hi, 16)) for lo, hi in pairs)
    low = 0
    for lo, hi in ranges:
        if not low <= lo <= hi:
            raise Junk
        low = hi + 2
    if len(ranges) > 32:
        raise Junk
    return ranges


def _listed(read):
    def read_list(text):
        return () if text == "-" else tuple(read(part) for part in text.split(","))

    return read_list


_DIGITS = r"(?:0|[1-9][0-9]{0,19})"
_NAME = r"[!-+\--~]{1,64}"
_POINT = r"[0-9a-f]{16}"
_FIELDS = {
    "u": (_DIGITS, _SHORT),
    "U": (_DIGITS, _LONG),
    "f": (r"(?:-|%s)" % _DIGITS, lambda text: None if text == "-" else _LONG(text)),
    "p": (_DIGITS, _PARTITION),
    "e": (r"%s\.%s" % (_DIGITS, _DIGITS), _epoch),
    "i": (r"[1-9][0-9]{0,2}\.%s" % _DIGITS, _who),
    "w": (r"(?:[1-9][0-9]{0,2}\.%s|a[1-9])" % _DIGITS, _who),
    "x": (_POINT, lambda text: int(text, 16)),
    "r": (r"(?:-|%s-%s(?:,%s-%s)*)" % ((_POINT,) * 4), _ranges),
    "l": (r"(?:-|%s(?:,%s)*)" % (_DIGITS, _DIGITS), _listed(_PARTITION)),
    "o": (r"(?:-|%s(?:,%s)*)" % (_DIGITS, _DIGITS), _listed(number(1, 999))),
    "h": (r"(?:[0-9a-f]{2}){1,512}", bytes.fromhex),
    "n": (_NAME, str),
    "m": (r"%s(?:,%s){0,63}" % (_NAME, _NAME), str),
    "v": (r"[ -~]{1,400}", str),
    "y": (r"(?:fence|lost|counters|accused)", str),
    "a": (r"(?:seeking|linked|routing|left)", str),
    "k": (r"(?:hello|offered|bound|parting|accused|discharged|heir)", str),
    "q": (r"(?:none|idle|secondary|primary)", str),
    "c": (r"(?:link|part|give|join|create|swap|heal|lose|write|resolve|names)", str),
    "s": (r"(?:notrouting|full|linked|notlinked|busy|toomany|empty|notmanager|exists|nounit|notmember|notprimary"
          r"|notready|counters)", str),
    "b": (_DIGITS, number(0, 255)),
}
_REPORTS = (
    "own %r %f", "accused %w", "discharged %w", "heir %w %U", "tookover %w %r", "gave %w %u %r", "took %w %u %r",
    "returned %w %u %r", "left %y", "stopped", "found %x %w", "nowhere %x", "promised %p %e", "adopted %p %e %u",
    "accepted %p %e %u", "primary %p %e", "committed %p %e %u", "configured %p %e", "superseded %p %e", "units %l",
    "resolved %p %n %v", "unresolved %p %n", "names %p", "names %p %m", "refused %c %s", "refused %c toofew %b",
)
_ANSWERS = (
    "entry %p %e %u %h", "held %x %U", "unheld %x", "leads %p %e", "follows %p", "unknown", "late", "fault line",
    "fault nosuch", "fault large", "fault busy", "node %w %a %U %f", "arbiter %U %U", "owns %r", "link %w %k %U", "up %o",
    "replica %p %e %q %u", "changing %p %e %U", "open %U", "watchers %U",
)


def _compiled(forms, before=""):
    table = {}
    for form in forms:
        letters = re.findall("%([a-zA-Z])", before + form)
        pattern = re.sub("%([a-zA-Z])", lambda found: "(%s)" % _FIELDS[found.group(1)][0], re.escape(before + form))
        table.setdefault(form.split(" ")[0], []).append((re.compile(pattern), [_FIELDS[k][1] for k in letters]))
    return table


_REPORT_FORMS = _compiled(_REPORTS, "%U - %i %U ")
_ANSWER_FORMS = _compiled(_ANSWERS)


def _read(table, word, text):
    for pattern, readers in table.get(word, ()):
        found = pattern.fullmatch(text)
        if found:
            return [word] + [read(part) for read, part in zip(readers, found.groups())]
    raise Junk


def read_report(text):
    """The word of a report, and its fields behind the instance and its reading."""
    words = text.split(" ", 5)
    report = _read(_REPORT_FORMS, words[4] if len(words) > 4 else "", text)
    return [report[0]] + report[4:]


def read_words(text):
    """What a line of an answer says: the word and the fields, of a report too."""
    if text[:1].isdigit():
        return read_report(text)
    return _read(_ANSWER_FORMS, text.split(" ", 1)[0], text)


def read_child(text):
    """A line behind the first one: ('answer', tag, text, words), ('done', tag), ('given', K, report), ('report', report)."""
    found = re.fullmatch(r"(@|done |#)(%s)(?: (.+))?" % _DIGITS, text)
    if not found:
        return "report", read_report(text)
    mark, digits, rest = found.groups()
    if (mark == "done ") != (rest is None):
        raise Junk
    if mark == "#":
        return "given", number(1, 2**64 - 1)(digits), read_report(rest)
    if rest is None:
        return "done", _SHORT(digits)
    return "answer", _SHORT(digits), rest, read_words(rest)


def read_first(text):
    """The protocol's number in the first line, or None for the fault line of a start that failed."""
    if re.fullmatch("fault [ -~]+", text):
        return None
    found = re.fullmatch("fabricd [!-~]{1,64} (%s)" % _DIGITS, text)
    if not found:
        raise Junk
    return int(found.group(1))


def text_of(raw):
    """The text of a line, each byte of which is printable."""
    if len(raw) > MAX_LINE or re.search(rb"[^ -~]", raw):
        raise Junk
    return raw.decode("ascii")
