"""Runs cases, and puts what they printed into the pages that speak of them."""
import contextlib
import io
import os
import signal
import sys

from cluster import Failed

TOP = os.path.join(os.path.dirname(os.path.realpath(__file__)), "..", "..")
PAGES = ("docs/recovery.md", "docs/traps.md")


class Both(io.StringIO):
    """What is printed, and kept."""

    def write(self, text):
        sys.__stdout__.write(text)
        sys.__stdout__.flush()
        return super().write(text)


def run_case(case, program):
    """What the case printed, and why it failed, if it did."""
    with contextlib.redirect_stdout(Both()) as printed:
        try:
            case(program)
        except Failed as why:
            print("FAILED: %s" % why)
            return printed.getvalue(), str(why)
    return printed.getvalue(), None


def put(name, printed):
    """Replaces the block behind the mark `<!-- ran NAME -->` in each page that has one."""
    mark = "<!-- ran %s -->" % name
    for page in PAGES:
        path = os.path.join(TOP, page)
        with open(path) as file:
            before, found, after = file.read().partition(mark + "\n")
        if not found:
            continue
        rest = after.splitlines()
        while rest and (not rest[0] or rest[0].startswith("    ")):
            rest.pop(0)
        block = ["", *("    " + line for line in printed.splitlines()), ""]
        with open(path, "w") as file:
            file.write("\n".join([before + mark, *block, *rest]) + "\n")


def main_of(cases, words, usage):
    """Runs the cases that are named, or all; the status is 1 if one failed."""
    puts = words[:1] == ["--pages"]
    words = words[1:] if puts else words
    if not words or words[0].startswith("-"):
        print(usage.strip(), file=sys.stderr)
        return 2
    program = os.path.realpath(words[0])
    wanted = words[1:] or list(cases)
    if not os.access(program, os.X_OK) or any(name not in cases for name in wanted):
        print("usage: PROGRAM is the built program; the cases are %s" % " ".join(cases), file=sys.stderr)
        return 2
    signal.signal(signal.SIGTERM, lambda *_: sys.exit(1))
    failed = []
    for name in wanted:
        print("== %s" % name, flush=True)
        printed, why = run_case(cases[name], program)
        if why:
            failed.append(name)
        elif puts:
            put(name, printed)
    print("%d cases, %d failed: %s" % (len(wanted), len(failed), " ".join(failed) or "-"))
    return 1 if failed else 0
