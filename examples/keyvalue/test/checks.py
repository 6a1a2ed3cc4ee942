"""What must hold of what clients saw and services logged. Times are readings of one clock: all runs on one machine.

`violations` gives a list for each kind. `try_checks` shows that each kind is found in a small history that has it.
"""
from collections import defaultdict
from typing import NamedTuple, Optional

KINDS = (
    "served by two",  # a ticket of a key that another service has served since this one gained it
    "served when lost",  # a ticket of a key that the service itself had given up
    "tickets that fell",  # a ticket that is not greater than one that was answered before it was asked for
    "lost writes",  # an acknowledged write that is not in its log
    "old gets",  # a get without a write that was acknowledged, or read, before it was asked for
    "unwritten values",  # a value that was read, and is not in its log
)


class Asked(NamedTuple):
    """A request of a client, and its answer."""

    word: str
    key: str
    sent: float
    answered: Optional[float]  # None: nobody knows what became of it
    text: str  # what was put
    answer: list  # its words


class Said(NamedTuple):
    """A line in the log of a service."""

    reading: float
    number: int
    word: str
    ranges: tuple  # of `gained` and `losing`


def read_asked(line):
    word, _, key, sent, answered, *rest = line.split()
    text = rest.pop(0) if word == "put" else ""
    return Asked(word, key, float(sent), None if answered == "-" else float(answered), text, rest)


def violations(asked, said, served, logs, point_of, partition_of):
    """What does not hold, by its kind.

    ASKED is what clients saw, and SAID what services said. SERVED has the tickets of each key by the services' logs: of
    each its reading and the service. LOGS has the texts of each partition, in their order.
    """
    found = {kind: [] for kind in KINDS}
    for key, events in served.items():
        check_holders(key, events, [it for it in said if is_about(it, point_of(key))], found)
    tickets, reads = defaultdict(list), defaultdict(list)
    for it in asked:
        if it.word == "next" and it.answer[0] == "ticket":
            tickets[it.key].append(it)
        elif it.word != "next":
            reads[it.key].append(it)
    for key, answers in tickets.items():
        check_rise(key, answers, found["tickets that fell"])
    for key, answers in reads.items():
        texts = [text.split(" ", 1)[1] for text in logs.get(partition_of(key), ()) if text.startswith(key + " ")]
        check_values(key, answers, {text: place for place, text in enumerate(texts)}, found)
    return found


def is_about(said, point):
    return said.word in ("begin", "lost") or any(lo <= point <= hi for lo, hi in said.ranges)


def check_holders(key, served, said, found):
    """From when a service says that it gained a key until it says that it lost it, nobody else serves it.

    A service that was stopped may say `gained` late, when others have the key long since. Then it serves nothing.
    """
    events = [(it.reading, 0, it.number, it.word) for it in said]
    events += [(reading, 1, number, "served") for reading, number in served]
    holders, others = set(), {}  # others: of each service, who else has served since it gained the key
    for reading, _, number, word in sorted(events):
        if word == "gained":
            holders.add(number)
            others[number] = None
        elif word != "served":
            holders.discard(number)
        else:
            if others.get(number):
                words = (key, reading, number, others[number])
                found["served by two"].append("%s at %.6f by %s, meanwhile by %s" % words)
            if number not in holders:
                found["served when lost"].append("%s at %.6f by %s" % (key, reading, number))
            others.update({it: number for it in others if it != number})


def in_time(answers):
    """Each answer twice, by time: when it was sent, and when it came."""
    events = [(it.sent, 1, it) for it in answers] + [(it.answered, 0, it) for it in answers if it.answered is not None]
    return sorted(events, key=lambda event: event[:2])


def check_rise(key, answers, found):
    greatest, floors = (0, 0), {}
    for _, is_sent, it in in_time(answers):
        ticket = int(it.answer[1]), int(it.answer[2])
        if is_sent:
            floors[id(it)] = greatest
            continue
        if ticket <= floors[id(it)]:
            found.append("%s at %.6f: %s is not above %s" % (key, it.answered, ticket, floors[id(it)]))
        greatest = max(greatest, ticket)


def check_values(key, answers, places, found):
    """A place is that of a write among all of its key. A get must not be before what was known when it was sent."""
    known, floors = -1, {}
    for time, is_sent, it in in_time(answers):
        if is_sent:
            floors[id(it)] = known
            continue
        value = it.text if it.word == "put" else it.answer[1] if it.answer[0] == "value" else None
        place = -1 if value is None else places.get(value)
        if place is None:
            kind = "lost writes" if it.word == "put" else "unwritten values"
            found[kind].append("%s at %.6f: %s" % (key, time, value))
        elif it.word != "peek":
            if it.word == "get" and place < floors[id(it)]:
                words = (key, time, value, place, floors[id(it)])
                found["old gets"].append("%s at %.6f: %s of place %d, not %d" % words)
            known = max(known, place)


def try_checks():
    """Which of these small histories are not judged as they should be: none, if the checks are right."""

    def find(*lines, said=((1, 1, "gained"),), served=(), log=("k a", "?", "k b")):
        asked = [read_asked(line) for line in lines]
        events = [Said(*it, ((0, 9),) if it[2] in ("gained", "losing") else ()) for it in said]
        found = violations(asked, events, {"k": served}, {7: list(log)}, lambda key: 5, lambda key: 7)
        return [kind for kind in KINDS if found[kind]]

    served, first = ((3, 1), (7, 1)), "next c k 2 4 ticket 1 1"
    put = ("put c k 1 2 a ok 1", "put c k 3 4 b ok 3")
    both, three = ((1, 1, "gained"), (5, 2, "gained")), ((3, 1), (6, 2), (7, 1))
    wanted = [
        (find(first, "next c k 6 8 ticket 1 2", served=served), []),
        (find(served=three, said=both), ["served by two"]),
        (find(served=((6, 2), (7, 1)), said=both), ["served by two"]),
        (find(served=three, said=(*both, (6.5, 1, "gained"))), []),
        (find(served=((3, 1), (6, 2)), said=both), []),
        (find(served=served, said=(*both, (5.1, 2, "lost"))), []),  # `gained` was read late
        (find(served=served, said=((1, 1, "gained"), (5, 1, "losing"))), ["served when lost"]),
        (find(served=served, said=((1, 1, "gained"), (5, 1, "begin"))), ["served when lost"]),
        (find(first, "next c k 6 8 ticket 0 9"), ["tickets that fell"]),
        (find(first, "next c k 6 8 ticket 1 1"), ["tickets that fell"]),
        (find(first, "next c k 3 8 ticket 0 9"), []),  # it was sent before the other one was answered
        (find(*put, "get c k 5 6 value b", "peek c k 7 8 value a", "put c k 9 - c silent"), []),
        (find(*put, log=("k a",)), ["lost writes"]),
        (find(*put, "get c k 5 6 value a"), ["old gets"]),
        (find(*put, "get c k 3.5 6 value a"), []),
        (find(put[0], "get c k 3 4 value b", "get c k 5 6 value a"), ["old gets"]),
        (find(put[0], "get c k 3 4 nothing"), ["old gets"]),
        (find("peek c k 3 4 value x"), ["unwritten values"]),
    ]
    return [number for number, (found, expected) in enumerate(wanted) if found != expected]
