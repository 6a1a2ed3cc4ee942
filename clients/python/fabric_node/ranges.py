"""Sets of points: tuples of (lo, hi), both ends included, rising."""


def minus(points, others):
    """The points that are not among the others."""
    left = []
    for lo, hi in points:
        for other_lo, other_hi in others:
            if other_hi < lo or other_lo > hi:
                continue
            if lo < other_lo:
                left.append((lo, other_lo - 1))
            lo = other_hi + 1
        if lo <= hi:
            left.append((lo, hi))
    return tuple(left)


def has(points, point):
    return any(lo <= point <= hi for lo, hi in points)
