"""Manual pages as bench/manuals reads them: sections, tags with their texts, blocks of plain lines, and paragraphs."""
import re

FONTS = {"B", "I", "BR", "RB", "BI", "IB", "IR", "RI", "SM", "SB"}
SIGNS = {r"\-": "-", r"\&": "", r"\(ha": "^", r"\(ti": "~", r"\(aq": "'", r"\(ga": "`", r"\fR": "", r"\fB": "", r"\fI": "", r"\e": "\\"}


def plain(text):
    """The text with each escape as the sign that it prints."""
    return re.sub(r"\\(?:\(..|f.|.)", lambda it: SIGNS[it[0]], text)


def words_of(line):
    """The words of a macro line: quotes keep blanks."""
    return [quoted or bare for quoted, bare in re.findall(r'"([^"]*)"|(\S+)', line)]


def said(line):
    """What a line of text, or a macro of fonts, prints; nothing for other macros."""
    if not line.startswith("."):
        return plain(line)
    name, *words = words_of(line[1:])
    if name not in FONTS:
        return None
    return plain((" " if len(name) == 1 else "").join(words))


class Page:
    """A manual page: its title line, and its sections in order."""

    def __init__(self, file):
        with open(file, encoding="utf-8") as it:
            lines = it.read().splitlines()
        self.title = words_of(lines[0])
        self.sections = {}
        for line in lines[1:]:
            if line.startswith(".SH "):
                self.sections[" ".join(words_of(line[4:]))] = found = []
            elif not line.startswith('.\\"'):
                found.append(line)

    def tags(self, section):
        """The entries of a section: what each tag prints, and the text below it."""
        found, lines = [], self.sections.get(section, [])
        for place, line in enumerate(lines):
            if line == ".TP":
                end = next((i for i in range(place + 2, len(lines)) if re.match(r"\.(TP|PP|IP)", lines[i])), len(lines))
                found.append((said(lines[place + 1]), joined(lines[place + 2:end])))
        return found

    def blocks(self, section):
        """The blocks of plain lines of a section."""
        found, block = [], None
        for line in self.sections.get(section, []):
            if line == ".nf":
                block = []
            elif line == ".fi":
                found.append(block)
                block = None
            elif block is not None:
                block.append(plain(line))
        return found

    def paragraphs(self):
        """What each paragraph says, without the blocks of plain lines and without tags."""
        found, in_block, after_tag = [[]], False, False
        for section, lines in self.sections.items():
            found.append([])
            for line in lines if section != "SYNOPSIS" else []:
                in_block = line == ".nf" or in_block and line != ".fi"
                if after_tag or in_block or line == ".fi":
                    after_tag = False
                elif said(line) is None:
                    found.append([])
                    after_tag = line == ".TP"
                else:
                    found[-1].append(line)
        return [joined(it) for it in found if it]


def joined(lines):
    return " ".join(filter(None, map(said, lines)))
