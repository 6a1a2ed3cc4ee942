"""An SVG as text: elements with short numbers, and texts and tooltips that can be searched."""


def escape(text):
    text = text.replace("&", "&amp;").replace("<", "&lt;").replace(">", "&gt;").replace('"', "&quot;")
    return text


# The advance of the letters of DejaVu Sans, in hundredths of the size: each width with its letters.
WIDTHS = {
    28: "'ijl", 32: " ,.", 34: "/:;|\\", 36: "-f", 39: "()[]t!r", 52: "szc?*_", 59: "vxyFkL", 62: "TYaoeP",
    68: "AVBRXZC", 76: "HNDGUOQ", 83: "w#+<=>^~", 97: "mWM%@",
}
WIDTH_OF = {letter: width for width, letters in WIDTHS.items() for letter in letters}
OTHER_WIDTH = 64


def text_width(text, size=11):
    """About how wide a text is, so that the next one begins behind it."""
    return sum(WIDTH_OF.get(it, OTHER_WIDTH) for it in text) * size / 100


def number(value):
    """A length with two decimals at most, and no zeros behind."""
    text = f"{value:.2f}"
    return text.rstrip("0").rstrip(".") if "." in text else text


class Picture:
    """Elements in the order in which they are drawn."""

    def __init__(self, width):
        self.width = width
        self.height = 0
        self.parts = []

    def element(self, name, title=None, text=None, **attributes):
        """An element. `class_` is the attribute class, and `_` in a name is `-`."""
        words = [name]
        for key, value in attributes.items():
            if value is not None:
                shown = value if isinstance(value, str) else number(value)
                words.append(f'{key.rstrip("_").replace("_", "-")}="{escape(shown)}"')
        inner = (f"<title>{escape(title)}</title>" if title else "") + (escape(text) if text is not None else "")
        self.parts.append(f"<{' '.join(words)}>{inner}</{name}>" if inner else f"<{' '.join(words)}/>")

    def rect(self, x, y, width, height, class_, title=None, **more):
        self.element("rect", title, x=x, y=y, width=max(width, 0), height=max(height, 0), class_=class_, **more)

    def line(self, x1, y1, x2, y2, class_, title=None):
        self.element("line", title, x1=x1, y1=y1, x2=x2, y2=y2, class_=class_)

    def path(self, d, class_, title=None):
        self.element("path", title, d=d, class_=class_)

    def text(self, x, y, text, class_=None, title=None, **more):
        self.element("text", title, text, x=x, y=y, class_=class_, **more)

    def use(self, name, x, y, title=None, class_=None):
        self.element("use", title, href=f"#{name}", x=x, y=y, class_=class_)

    def open(self, name, **attributes):
        words = [f'{key.rstrip("_")}="{escape(value)}"' for key, value in attributes.items()]
        self.parts.append(f"<{' '.join([name, *words])}>")

    def close(self, name):
        self.parts.append(f"</{name}>")

    def written(self, title, style, definitions=""):
        """The whole file. It has no script, and asks for nothing from outside."""
        head = (
            f'<svg xmlns="http://www.w3.org/2000/svg" viewBox="0 0 {number(self.width)} {number(self.height)}" '
            f'width="{number(self.width)}" height="{number(self.height)}" role="img">'
        )
        paper = f'<rect width="{number(self.width)}" height="{number(self.height)}" class="paper"/>'
        lines = [head, f"<title>{escape(title)}</title>", f"<style>{style}</style>", f"<defs>{definitions}</defs>"]
        return "\n".join([*lines, paper, *self.parts, "</svg>"]) + "\n"


def nice_steps(first, last, count):
    """Round numbers from first to last, at most some `count` of them: multiples of 1, 2 or 5 times a power of ten."""
    least = max((last - first) / count, 1)
    power = 10 ** (len(str(int(least))) - 1)
    step = next(power * it for it in (1, 2, 5, 10) if power * it >= least)
    return range(-int(-first // step) * step, int(last) + 1, step)


def counted(count, one, many=None):
    """`1 block`, `2 blocks`."""
    return f"{count:,} {one if count == 1 else many or one + 's'}"


def thousands(value):
    return f"{value:,.0f}" if float(value).is_integer() else f"{value:,.1f}"
