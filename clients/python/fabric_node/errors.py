"""What a call can end with other than its result."""


class FabricError(Exception):
    """`name` says what went wrong, `text` says more, and `lines` are those of the answer, if there is one."""

    def __init__(self, name, text="", lines=()):
        super().__init__(name + (": " + text if text else ""))
        self.name, self.text, self.lines = name, text, tuple(lines)
