"""Why a cluster of `serving` is not whole: who holds what, how long turns were, how instances came and went."""

# words of the lines of a log that say how instances came and went, and points with them
CHANGES = {"begin", "accused", "discharged", "heir", "tookover", "gave", "took", "returned", "left", "slow"}
MOST = 20  # lines of a log


def share_of(states):
    """The share of the ring that these nodes own together."""
    return sum(hi - lo + 1 for it in states.values() for lo, hi in it.owns) / 2**64


def longest_turn(process):
    """The longest turn of a process in seconds, as its page says it; `?` where that does not answer."""
    try:
        lines = process.page("/metrics").splitlines()
    except OSError:
        return "?"
    found = [line.split()[1] for line in lines if line.startswith("fabricd_longest_turn_seconds ")]
    return found[0] if found else "?"


def changes_of(process):
    """The last lines of its log that say how its instances came and went, and points with them."""
    with open(process.log, errors="replace") as log:
        return [line.rstrip("\n") for line in log if CHANGES & set(line.split())][-MOST:]


def story(cluster):
    """All of that, as lines. Where nobody holds some points, their last holder and its only heir have gone."""
    turns = ", ".join(f"{it.name} {longest_turn(it)}" for it in cluster.all())
    lines = [f"the nodes hold {100 * share_of(cluster.states()):.1f}% of the ring; longest turns in s: {turns}"]
    for node in cluster.nodes:
        lines += [f"{node.name}: {line}" for line in changes_of(node)]
    return "\n".join(lines)
