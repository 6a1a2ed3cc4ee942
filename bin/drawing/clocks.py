"""Several processes on one time.

The lines of services have times of day. These differ by what the machines' clocks differ, and since a line is written
when its step is done: so a flight may seem to arrive before it was given. By how much tells how far apart they are.

Other reports have no common time. Each report counts from the start of its own process.

A receiver takes a flight after it was given, an heir takes over after its victim's hold ended, and the next instance
of a node starts after the one before. Each such pair bounds how much later one clock began than the other. A clock
is put where the nearest bound just holds: so what two processes did with each other is off by a message's way, a few
milliseconds.
"""
from .lines import node_of, order_of


def bounds(histories):
    """Pairs (a, b): how much later, at least, the clock of section b began than that of section a."""
    found = {}

    def later(a, b, ticks):
        if a != b:
            found[a, b] = max(ticks, found.get((a, b), ticks))

    given = {key: (i, it) for i, history in enumerate(histories) for key, it in history.flights.items() if it.begins}
    held = {it.who: (i, it) for i, history in enumerate(histories) for it in history.stretches}
    for i, history in enumerate(histories):
        for key, it in history.flights.items():
            if it.how == "took" and key in given:
                later(given[key][0], i, given[key][1].begins[0] - it.ends[0])
        for mark in history.marks:
            victim = mark.text.split(" ")[-1]
            if mark.kind == "tookover" and victim in held:
                section, stretch = held[victim]
                end = stretch.ends[0] if stretch.lapse is None else stretch.lapse
                later(section, i, end - mark.begins[0])
    for (a, life), (b, following) in follow_ups(histories):
        later(a, b, life.ends[0] - following.begins[0])
    return found


def follow_ups(histories):
    """Each instance of a node with the next one, where two processes reported them."""
    lives = [(i, it) for i, history in enumerate(histories) for it in history.lives]
    lives.sort(key=lambda it: order_of(it[1].who))
    return [(x, y) for x, y in zip(lives, lives[1:]) if node_of(x[1].who) == node_of(y[1].who) and x[0] != y[0]]


def offsets(histories, given):
    """When each section's clock began, and the sections that nothing ties to the first. `given` has the known ones."""
    bound = bounds(histories)
    known = dict(given) or {0: 0}
    while len(known) < len(histories):
        after = {b: max(known[a] + d for (a, to), d in bound.items() if to == b and a in known)
                 for (a, b) in bound if a in known and b not in known}
        before = {a: min(known[b] - d for (of, b), d in bound.items() if of == a and b in known)
                  for (a, b) in bound if b in known and a not in known}
        if not after and not before:
            break
        known.update(after or before)
    loose = [i for i in range(len(histories)) if i not in known]
    known.update((i, 0) for i in loose)
    return [known[i] for i in range(len(histories))], loose


# Lines of one moment may be so many milliseconds apart, where no flight shows more.
LEAST_APART = 10


def join_by_day(histories):
    """Puts histories with times of day on one clock, which begins at the first line of all. Gives that time, and how
    many milliseconds the times are taken to be apart.
    """
    begun = [it.first for it in histories if it.first is not None]
    if not begun:
        return None, LEAST_APART
    for it in histories:
        it.move(-min(begun))
    for it in histories[1:]:
        absorb(histories[0], it)
    inversions = [it.begins[0] - it.ends[0] for it in histories[0].flights.values() if it.begins and it.how == "took"]
    return min(begun), max([LEAST_APART, *inversions])


def join(histories, given):
    """Puts all histories on the clock of the first one, and returns the sections that nothing ties to it."""
    begun, loose = offsets(histories, given)
    earliest = min(begun)
    for history, ticks in zip(histories, begun):
        ticks = round(ticks - earliest)
        history.first, history.last = history.first + ticks, history.last + ticks
        for it in history.spans():
            it.move(ticks)
    first = histories[0]
    for history in histories[1:]:
        absorb(first, history)
    return loose


def absorb(history, other):
    history.lives += other.lives
    history.stretches += other.stretches
    history.marks += other.marks
    history.instances.update(other.instances)
    if other.first is not None:
        history.first = other.first if history.first is None else min(history.first, other.first)
    history.last = max(history.last, other.last)
    history.is_filtered = history.is_filtered or other.is_filtered
    history.renewals += other.renewals
    for key, theirs in other.flights.items():
        ours = history.flights.setdefault(key, theirs)
        if ours is not theirs:
            ours.join(theirs)
    for number, theirs in other.partitions.items():
        ours = history.partitions.setdefault(number, theirs)
        if ours is not theirs:
            ours.join(theirs)
