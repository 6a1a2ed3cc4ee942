"""Points of the ring, ranges of them, and the clock by which a span is counted."""
import time


def now():
    """Seconds of a clock that goes on while the machine sleeps, as a span does."""
    return time.clock_gettime(time.CLOCK_BOOTTIME)


def point_of(key):
    """Where a key lies on the ring: FNV-1a, mixed so that keys that are alike lie far from each other."""
    point = 0xCBF29CE484222325
    for byte in key.encode():
        point = (point ^ byte) * 0x100000001B3 % 2**64
    return (point ^ point >> 32) * 0x9E3779B97F4A7C15 % 2**64


def has(ranges, point):
    return any(lo <= point <= hi for lo, hi in ranges)


def shown(ranges):
    return ",".join("%016x-%016x" % pair for pair in ranges) or "-"


def read_ranges(text):
    return tuple(tuple(int(it, 16) for it in part.split("-")) for part in text.split(","))
