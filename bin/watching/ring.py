"""The ring as the nodes' answers have it: which part is held by whom, by nobody, or by two."""

POINTS = 1 << 64


def spans_of(owns):
    """The parts of a node as pairs (first, end) in points, the end not in it; ValueError where a text is none."""
    spans = []
    for text in owns:
        first, _, last = text.partition("-")
        pair = (int(first, 16), int(last, 16) + 1)
        if not 0 <= pair[0] < pair[1] <= POINTS:
            raise ValueError(text)
        spans.append(pair)
    return sorted(spans)


def held_by(nodes):
    """Rising parts (first, end, names of the holders) that cover the whole ring, for (name, spans) of each node."""
    edges = sorted({0, POINTS, *[edge for _, spans in nodes for pair in spans for edge in pair]})
    parts = []
    for first, end in zip(edges, edges[1:]):
        names = tuple(name for name, spans in nodes if any(a <= first and end <= b for a, b in spans))
        if parts and parts[-1][2] == names:
            parts[-1] = (parts[-1][0], end, names)
        else:
            parts.append((first, end, names))
    return parts


def bar(parts, letters, width):
    """The ring as `width` letters: the holder of the most points of a cell, `!` where two hold one, `.` where nobody does."""
    cells = []
    for cell in range(width):
        first, end = POINTS * cell // width, POINTS * (cell + 1) // width
        share, twice = {}, False
        for a, b, names in parts:
            points = min(b, end) - max(a, first)
            if points > 0:
                twice = twice or len(names) > 1
                for name in names or ("",):
                    share[name] = share.get(name, 0) + points
        best = max(share, key=share.get)
        cells.append("!" if twice else letters.get(best, "."))
    return "".join(cells)


def points_of(spans):
    return sum(end - first for first, end in spans)


def text_of(first, end):
    return f"{first:016x}-{end - 1:016x}"
