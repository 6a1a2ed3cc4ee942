"""Colours and styles. A node has one colour, the same in every picture, by its number.

The eight hues are those of Okabe and Ito, which people who see red and green alike can tell apart, with wine in the
place of black. Nodes 9 to 16 have them darker, nodes 17 to 24 lighter; then they begin anew. So a block bears its
instance's name, too.
"""
HUES = ("#0072b2", "#e69f00", "#009e73", "#cc79a7", "#56b4e9", "#d55e00", "#f0e442", "#882255")
TIERS = (None, ("#000000", 0.38), ("#ffffff", 0.5))
COLOURS = len(HUES) * len(TIERS)

LIGHT = {"paper": "#ffffff", "ink": "#1f2328", "faint": "#59636e", "rule": "#d1d9e0", "alarm": "#c2181e"}
DARK = {"paper": "#0d1117", "ink": "#e6edf3", "faint": "#9198a1", "rule": "#3d444d", "alarm": "#ff7b72"}


def parts(colour):
    return [int(colour[i:i + 2], 16) for i in (1, 3, 5)]


def mixed(colour, other, share):
    return "#" + "".join(f"{round(a + (b - a) * share):02x}" for a, b in zip(parts(colour), parts(other)))


def colour(index):
    hue, tier = HUES[index % len(HUES)], TIERS[index // len(HUES) % len(TIERS)]
    return mixed(hue, *tier) if tier else hue


def luminance(text):
    """How light a colour is, from 0 to 1, as WCAG reckons it."""
    red, green, blue = [(it / 255 / 12.92) if it <= 10 else ((it / 255 + 0.055) / 1.055) ** 2.4 for it in parts(text)]
    return 0.2126 * red + 0.7152 * green + 0.0722 * blue


def index_of(node):
    return (node - 1) % COLOURS


def themed(theme):
    """What light and dark differ in."""
    return (
        ".paper{fill:%(paper)s}text{fill:%(ink)s}.faint{fill:%(faint)s}.alarm{fill:%(alarm)s}"
        ".rule{stroke:%(rule)s}.tick{stroke:%(faint)s}.still{stroke:%(faint)s}.frame{stroke:%(faint)s}"
        ".fault{stroke:%(alarm)s}.rise{stroke:%(ink)s}.change{stroke:%(ink)s}.flown{stroke:%(ink)s}"
        ".both{fill:%(alarm)s}.sign{fill:%(paper)s;stroke:%(ink)s}.full{fill:%(ink)s;stroke:%(paper)s}"
        ".bare{fill:%(ink)s}.rim{stroke:%(paper)s}" % theme
    )


BASE = (
    "text{font:11px 'DejaVu Sans',Verdana,sans-serif}.big{font-size:15px;font-weight:bold}"
    ".head{font-size:12px;font-weight:bold}.small{font-size:10px}.tiny{font-size:8px}"
    ".mono{font-family:'DejaVu Sans Mono',monospace}.right{text-anchor:end}.middle{text-anchor:middle}"
    ".rule,.tick{stroke-width:1}.still{stroke-width:3}.frame{fill:none;stroke-width:1}.fault{stroke-width:2}"
    ".rise{fill:none;stroke-width:1.5}.change{stroke-width:1.5;fill:none}.dashed{stroke-dasharray:3 2}"
    ".flown{stroke-width:1;opacity:.55}"
    ".edge{stroke-width:1.5;stroke-dasharray:3 2}.both{opacity:.85}.sign{stroke-width:1.3}"
    ".full{stroke-width:.9;paint-order:stroke}.rim{stroke-width:4;fill:none}.many{opacity:.22}"
    ".replica{opacity:.55}.gone{opacity:.35}text.dark{fill:#000}text.pale{fill:#fff}"
    "#ring rect,#ring path,#nodes rect{shape-rendering:crispEdges}"
)


def style(indexes):
    """The styles of a picture in which the colours of these indexes occur."""
    of_nodes = "".join(f".n{i}{{fill:{colour(i)}}}.e{i}{{stroke:{colour(i)}}}.h{i}{{fill:url(#h{i})}}" for i in indexes)
    return BASE + themed(LIGHT) + of_nodes + "@media(prefers-color-scheme:dark){" + themed(DARK) + "}"


def hatches(indexes):
    """The patterns of ranges in flight: stripes of the giver's colour."""
    return "".join(
        f'<pattern id="h{i}" width="6" height="6" patternUnits="userSpaceOnUse" patternTransform="rotate(45)">'
        f'<rect width="2.6" height="6" fill="{colour(i)}"/></pattern>'
        for i in indexes
    )


def ink_on(index):
    """The class of a text that lies on a block of this colour."""
    return "dark" if luminance(colour(index)) > 0.22 else "pale"
