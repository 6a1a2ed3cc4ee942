"""libfabric for Python: words of the fabric that touch nothing outside, over ctypes.

    import libfabric
    library = libfabric.Library()           # ../libfabric.so beside this file, or what FABRIC_LIBRARY names
    status, line = library.audit(transcript)
    library.point(b"a")                     # 'af63dc4c8601ec8c', or None where the bytes are no name

fabric.h says what each word means, and its rules hold here. MemoryError comes where memory was short.
"""
import ctypes
import os

OK, OUT_OF_MEMORY, BAD_LINE, TOO_LARGE, NO_ROOM, NOT_READ = 0, 1, 6, 9, 32, 33
ROOM = 4096  # what is tried first; a longer reply is asked for again
WORDS = ("audit", "point", "frame_line", "frame_bytes", "record_line", "record_bytes")
TESTS = ("event", "report")


class Library:
    """The functions of a shared library. An instance may be used in several threads."""

    def __init__(self, path=None):
        here = os.path.dirname(os.path.realpath(__file__))
        path = path or os.environ.get("FABRIC_LIBRARY") or os.path.join(os.path.dirname(here), "libfabric.so")
        library = ctypes.CDLL(path)
        size = ctypes.c_size_t
        self._of = {name: getattr(library, f"fabric_{name}") for name in WORDS + TESTS}
        for name, function in self._of.items():
            function.restype = ctypes.c_uint8
            function.argtypes = [ctypes.c_char_p, size]
            if name in WORDS:
                function.argtypes += [ctypes.c_char_p, size, ctypes.POINTER(size)]

    def _reply(self, name, given, most=ROOM):
        """The code of a word, and its text."""
        length = ctypes.c_size_t()
        while True:
            room = ctypes.create_string_buffer(most)
            code = self._of[name](given, len(given), room, most, ctypes.byref(length))
            if code != NO_ROOM:
                break
            most = length.value
        if code == OUT_OF_MEMORY:
            raise MemoryError(f"fabric_{name}")
        return code, room.raw[: length.value]

    def _text(self, name, given):
        """The text of a word, or None where the bytes are none of those that it reads."""
        code, text = self._reply(name, given)
        return text if code == OK else None

    def _is(self, name, given):
        code = self._of[name](given, len(given))
        if code == OUT_OF_MEMORY:
            raise MemoryError(f"fabric_{name}")
        return code == OK

    def audit(self, transcript):
        """The status and the line of `fabric audit`."""
        return self._reply("audit", transcript)

    def point(self, name):
        """The point of a name, as 16 digits."""
        text = self._text("point", name)
        return None if text is None else text.decode("ascii")

    def is_event(self, line):
        """Whether the bytes are an event of a schedule, without its line feed."""
        return self._is("event", line)

    def is_report(self, line):
        """Whether the bytes are a line of a report, without its line feed."""
        return self._is("report", line)

    def frame_line(self, frame):
        """The line of a frame."""
        return self._text("frame_line", frame)

    def frame_bytes(self, line):
        """The frame with this line."""
        return self._text("frame_bytes", line)

    def record_line(self, record):
        """The line of a record."""
        return self._text("record_line", record)

    def record_bytes(self, line):
        """The record with this line."""
        return self._text("record_bytes", line)
