"""The folders of which this process has a Node. A second child for a folder would be a second parent's child."""
import os
import threading

_held = set()
_lock = threading.Lock()


def folder_of(words):
    """The folder that the words name, as docs/service.md says: `--folder D`, `--folder=D`, or the current one."""
    folder = "."
    for word, following in zip(words, list(words[1:]) + [None]):
        if word.startswith("--folder="):
            folder = word[len("--folder="):]
        elif word == "--folder" and following is not None:
            folder = following
    return os.path.realpath(folder)


def hold(folder):
    """Whether the folder was free. It is held then."""
    with _lock:
        if folder in _held:
            return False
        _held.add(folder)
        return True


def let_go(folder):
    with _lock:
        _held.discard(folder)
