"""The view of a cluster as lines of text, each with its kind: plain, head, good, bad or unsure."""
import time

from .ring import POINTS, bar, held_by, points_of, spans_of, text_of

LETTERS = "123456789ABCDEFGHIJKLMNOPQRSTUVWXYZabcdefghijklmnopqrstuvwxyz"
MOST_FENCE_MARKS = 20
MOST_FINDINGS = 4


def seconds(ticks):
    return f"{ticks / 1000:.1f} s"


def number_of(who):
    """The number of the node in a WHO, as 2 in "2.1"."""
    return int(who.split(".")[0])


class Node:
    """A node as its page shows it."""

    def __init__(self, said):
        self.who, self.phase = said["node"], said["phase"]
        self.reading, self.fence = said["reading"], said["fence"]
        self.spans = spans_of(said["owns"])
        self.links, self.replicas, self.changing = said["links"], said["replicas"], said["changing"]
        self.open, self.watchers, self.checksum = said["open"], said["watchers"], said["checksum"]

    def fence_left(self):
        return None if self.fence is None else max(0, self.fence - self.reading)

    def primary_of(self):
        return [one["partition"] for one in self.replicas if one["role"] == "primary"]


def nodes_of(answers):
    """The nodes that answered, by number, and the answers that are of no shape this program knows."""
    nodes, odd = [], []
    for one in answers:
        if one.said and "node" in one.said:
            try:
                nodes.append(Node(one.said))
            except (KeyError, ValueError, TypeError, AttributeError):
                odd.append(one.address)
    return sorted(nodes, key=lambda node: number_of(node.who)), odd


def ring_lines(nodes, all_answered, steady, width):
    letters = {node.who: LETTERS[place % len(LETTERS)] for place, node in enumerate(nodes)}
    parts = held_by([(node.who, node.spans) for node in nodes])
    lines = [(f"ring  |{bar(parts, letters, max(16, width - 8))}|", "plain")]
    twice = [one for one in parts if len(one[2]) > 1]
    nobody = [one for one in parts if not one[2]]
    if steady is not None:
        steady.note(twice + nobody)
    for one in twice[:MOST_FINDINGS]:
        sure = steady is not None and steady.is_sure(one)
        lines.append((f"      {text_of(*one[:2])} held by {' and '.join(one[2])}{'' if sure else ' ?'}", "bad" if sure else "unsure"))
    for one in nobody[:MOST_FINDINGS]:
        sure = steady is not None and all_answered and steady.is_sure(one)
        why = "" if sure else " ?" if all_answered else " or by a node that did not answer"
        lines.append((f"      {text_of(*one[:2])} held by nobody{why}", "bad" if sure else "unsure"))
    for kind, found in (("twice", twice), ("by nobody", nobody)):
        if len(found) > MOST_FINDINGS:
            lines.append((f"      and {len(found) - MOST_FINDINGS} more parts held {kind}", "unsure"))
    return lines, letters


def node_line(node, letter, most_fence):
    left = node.fence_left()
    marks = "" if left is None else "#" * max(0, min(MOST_FENCE_MARKS, MOST_FENCE_MARKS * left // max(1, most_fence)))
    fence = "no fence" if left is None else seconds(left)
    bound = sum(one["state"] == "bound" for one in node.links)
    primary = ",".join(str(one) for one in node.primary_of()[:12]) or "-"
    text = (
        f"{letter} {node.who:<8} {node.phase:<8} {100 * points_of(node.spans) / POINTS:5.1f}%  {fence:>8} {marks:<{MOST_FENCE_MARKS}} "
        f"{bound:>2}/{len(node.links):<2} {primary}"
    )
    return text, "good" if node.phase == "routing" else "unsure"


def node_lines(nodes, letters):
    most = max([node.fence_left() or 0 for node in nodes], default=0)
    head = f"  {'node':<8} {'phase':<8} {'share':>6}  {'fence':>8} {'':<{MOST_FENCE_MARKS}} links primary of"
    return [(head, "head"), *[node_line(node, letters[node.who], most) for node in nodes]]


def partition_lines(nodes):
    found = {}
    for node in nodes:
        for one in node.replicas:
            found.setdefault(one["partition"], []).append((node.who, one))
    changing = {}
    for node in nodes:
        for one in node.changing:
            changing[one["partition"]] = f"{node.who} to {one['epoch']} for {seconds(one['ticks'])}"
    if not found and not changing:
        return []
    lines = [(f"{'partition':<10} {'epoch':<8} {'primary':<8} {'members: their last entries':<40} changing", "head")]
    for partition in sorted({*found, *changing}):
        members = found.get(partition, [])
        primary = [(who, one["epoch"]) for who, one in members if one["role"] == "primary"]
        newest = max(primary, key=lambda pair: [int(it) for it in pair[1].split(".")], default=("-", "-"))
        each = " ".join(f"{who}:{one['last']}" for who, one in members if one["role"] in ("primary", "secondary"))
        text = f"{partition:<10} {newest[1]:<8} {newest[0]:<8} {each or '-':<40} {changing.get(partition, '-')}"
        lines.append((text, "plain" if primary else "bad"))
    return lines


def other_lines(answers, odd):
    lines = []
    for one in answers:
        if one.said and "arbiter" in one.said:
            lines.append((f"arbitrator {one.said['arbiter']}: {one.said.get('entries', '?')} entries", "plain"))
    for one in answers:
        if not one.said:
            lines.append((f"{one.address}: {one.why}, for {one.since:.0f} s", "bad"))
    lines += [(f"{address}: a state that this program does not know", "bad") for address in odd]
    sums = {one.said.get("checksum") for one in answers if one.said}
    if len(sums) > 1:
        lines.append((f"{len(sums)} configurations: the processes are not of one cluster", "bad"))
    return lines


def view_lines(answers, steady, width, now):
    """All lines of the view."""
    nodes, odd = nodes_of(answers)
    all_answered = all(one.said for one in answers) and not odd
    at = time.strftime("%H:%M:%SZ", time.gmtime(now))
    lines = [(f"{at}  {sum(bool(one.said) for one in answers)} of {len(answers)} pages", "head")]
    if nodes:
        ring, letters = ring_lines(nodes, all_answered, steady, width)
        lines += [*ring, ("", "plain"), *node_lines(nodes, letters)]
        partitions = partition_lines(nodes)
        if partitions:
            lines += [("", "plain"), *partitions]
    others = other_lines(answers, odd)
    return [*lines, *([("", "plain")] if others else []), *others]
