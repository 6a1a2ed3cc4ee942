"""The commands that the pages for users and operators have: in blocks, in texts, and in the examples of manual pages."""
import os
import re
import sys

TOP = os.path.dirname(os.path.dirname(os.path.realpath(__file__)))
sys.path.insert(0, os.path.join(TOP, "bench"))

from manual_pages import Page  # noqa: E402

PAGES = ["README.md", *(f"docs/{it}.md" for it in (
    "quickstart", "operations", "recovery", "sizing", "traps", "scale", "pictures"))]
MANUALS = ("fabric.1", "fabricd.8", "fabric-config.5", "fabric-schedule.5", "fabric-transcript.5")
# A command begins with one of these words. A word alone, or with the name of a subcommand, only names a program.
FIRST = r"(?:bin|bench|etc|examples)/[\w/.-]+|\$fabric/\S+|/usr/lib/fabricd/drain|fabricd-run|fabricd|fabric|rt|systemctl|pgrep|kill|set|\{"
COMMAND = re.compile(rf"(?:{FIRST}) \S.*", re.S)
NAMED = re.compile(r"(?:fabric|fabricd|rt) [a-z]+|kill -9")


class Found:
    """A command: its page, its text, and the script that makes the block which has it, where a script does."""

    def __init__(self, page, text, by=None):
        self.page, self.text, self.by = page, text, by


def commands():
    found = []
    for page in PAGES:
        with open(os.path.join(TOP, page), encoding="utf-8") as it:
            text = it.read()
        if page == "docs/quickstart.md":
            found += [Found(page, it, "examples/cluster/run") for it in shown(text)]
            text = re.sub(r"```.*?```", "", text, flags=re.S)
        found += [Found(page, it, "examples/recovery/run") for it in shown(text)]
        found += [Found(page, it) for it in dict.fromkeys([*in_blocks(text), *in_texts(text)])]
    for name in MANUALS:
        page = Page(os.path.join(TOP, "man", name))
        for block in page.blocks("EXAMPLES"):
            found += in_manual(f"man/{name}", block)
    return found


def shown(text):
    """Commands behind a prompt, which a script has written into the page with what they printed."""
    return re.findall(r"^ *\$ (.*)$", text, re.M)


def in_blocks(text):
    """Commands in indented blocks. A line that ends with a bar goes on; two blanks begin a remark."""
    joined = re.sub(r"\|\n +", "| ", re.sub(r"```.*?```", "", text, flags=re.S))
    lines = [it[4:] for it in joined.splitlines() if re.match(r"    \S", it)]
    return [re.split(r"  +", it)[0] for it in lines if COMMAND.match(it)]


def in_texts(text):
    """Commands in a paragraph, a list or a table, between marks of code."""
    bare = re.sub(r"```.*?```", "", text, flags=re.S)
    spans = [re.sub(r"\s+", " ", it) for it in re.findall(r"(?<!`)`([^`]+)`(?!`)", bare)]
    return [it for it in spans if COMMAND.fullmatch(it) and not NAMED.fullmatch(it)]


def in_manual(page, block):
    """Commands of a manual page's examples. bench/manuals runs those that have an output below them."""
    found = []
    for i, line in enumerate(block):
        if COMMAND.match(line):
            is_shown = i + 1 < len(block) and not COMMAND.match(block[i + 1])
            found.append(Found(page, line, "bench/manuals" if is_shown else None))
    return found


def programs():
    """Programs and scripts that a page names by their path."""
    found = set()
    for page in PAGES:
        with open(os.path.join(TOP, page), encoding="utf-8") as it:
            found.update((page, path) for path in re.findall(r"`((?:bin|bench|etc|examples)/[\w/-]+)[ `]", it.read()))
    return sorted(found)
