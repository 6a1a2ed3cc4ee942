"""Plays the child: usage: play.py SCENARIO --folder FOLDER. It does what the scenario's section of this start says.

`[without]` names clients that do not take part: under valgrind, time is too slow to be bounded.

Each start of a folder takes the next section `[child]`, or plays the first line and then the next line of `[each]`. What
the client does otherwise than the section says is written to `child.log` of the folder, and so is each end that went well.

    > TEXT           writes a line              < TEXT        the client's next line is TEXT
    >> TEXT          writes without line feed   quiet MS      the client writes nothing for so long
    hex HEX          writes bytes               eof           the client closes standard input
    fill N C         writes N times C           exit N, kill  the end, by a status or by SIGKILL
    sleep MS         waits                      killed        the client ends this process
    closeout         closes standard output     silent        the same, and it writes nothing before
    pause LOW HIGH   the start came so many ms after the last child's end
    here             the current folder is that of the first start
    entries TAG P FROM N   an answer of N entries, from FROM on
    unitlist N       writes the numbers below N, with commas
    bigline TAG N    the client's next line has N times x behind its tag
    flood N          writes N lines that give up a point, and reads nothing until the client ends this process
"""
import os
import select
import signal
import sys
import time

PATIENCE = 60.0  # seconds for a line that the client owes


class Wrong(Exception):
    pass


def now():
    return time.clock_gettime(time.CLOCK_BOOTTIME)


def sections(path):
    """The sections of a scenario: pairs of a name and its lines."""
    found = []
    for line in open(path, encoding="ascii").read().splitlines():
        if line.startswith("[") and line.endswith("]"):
            found.append((line[1:-1], []))
        elif found and line and not line.startswith("//"):
            found[-1][1].append(line)
    return found


def began():
    """When this process was forked, to 10 ms, whatever its interpreter took to start."""
    fields = open("/proc/self/stat").read().rsplit(")", 1)[1].split()
    return int(fields[19]) / os.sysconf("SC_CLK_TCK")


class Player:
    def __init__(self, folder):
        self.folder, self.unread = folder, b""

    def write(self, data):
        while data:
            data = data[os.write(1, data):]

    def read_line(self, seconds):
        """The client's next line, or None if none came in time; the end of its lines is an empty text."""
        until = now() + seconds
        while b"\n" not in self.unread:
            if not select.select([0], [], [], max(0.0, until - now()))[0]:
                return None
            piece = os.read(0, 65536)
            if not piece:
                return ""
            self.unread += piece
        line, self.unread = self.unread.split(b"\n", 1)
        return line.decode("ascii", "replace")

    def expect(self, wanted):
        line = self.read_line(PATIENCE)
        if line != wanted:
            raise Wrong("%r in place of %r" % (line, wanted))

    def quiet(self, milliseconds):
        line = self.read_line(int(milliseconds) / 1000)
        if line is not None:
            raise Wrong("%r in a time of quiet" % line)

    def pause(self, low, high):
        since = 1000 * (began() - float(open(self.folder + "/end").read()))
        if not int(low) - 20 <= since <= int(high):
            raise Wrong("started %d ms after the last end" % since)

    def entries(self, tag, partition, first, count):
        for lsn in range(int(first), int(first) + int(count)):
            text = (b"entry %d" % lsn).hex()
            self.write(b"@%s entry %s 0.1 %d %s\n" % (tag.encode(), partition.encode(), lsn, text.encode()))
        self.write(b"done %s\n" % tag.encode())

    def unitlist(self, count):
        self.write(b",".join(b"%d" % number for number in range(int(count))) + b"\n")

    def bigline(self, tag, count):
        self.expect("@%s %s" % (tag, "x" * int(count)))

    def here(self):
        path = self.folder + "/here"
        if not os.path.exists(path):
            open(path, "w").write(os.getcwd())
        if open(path).read() != os.getcwd():
            raise Wrong("in " + os.getcwd())

    def flood(self, count):
        self.note("well")
        for number in range(1, int(count) + 1):
            self.write(b"#%d 9 - 1.1 500 gave 2.1 1 0000000000000000-0000000000000000\n" % number)
        self.killed(95)

    def note(self, text):
        with open(self.folder + "/child.log", "a") as log:
            log.write(text + "\n")
        with open(self.folder + "/end", "w") as file:
            file.write("%f" % now())

    def killed(self, seconds=PATIENCE):
        time.sleep(seconds)
        raise Wrong("it was not ended")

    def silent(self):
        line = self.read_line(PATIENCE)
        if line:
            raise Wrong("%r in place of the end" % line)
        time.sleep(PATIENCE)
        raise Wrong("it was not ended")

    def end(self, word, status=0):
        self.note("well")
        if word == "kill":
            os.kill(os.getpid(), signal.SIGKILL)
        os._exit(int(status))

    def do(self, line):
        word, _, rest = line.partition(" ")
        if word in (">", ">>"):
            self.write(rest.encode("ascii") + (b"\n" if word == ">" else b""))
        elif word == "<":
            self.expect(rest)
        elif word == "eof":
            self.expect("")
        elif word == "hex":
            self.write(bytes.fromhex(rest))
        elif word == "fill":
            self.write(rest.split()[1].encode() * int(rest.split()[0]))
        elif word == "sleep":
            time.sleep(int(rest) / 1000)
        elif word == "closeout":
            os.close(1)
        elif word in ("exit", "kill"):
            self.end(word, *rest.split())
        else:
            getattr(self, word)(*rest.split())


def scripts(path):
    """The lines of each start."""
    children = []
    for name, lines in sections(path):
        if name == "child":
            children.append(lines)
        if name == "each":
            children += [["> fabricd 0.9.0 1", "> " + line, "killed"] for line in lines]
    return children


def main():
    player = Player(sys.argv[sys.argv.index("--folder") + 1])
    with open(player.folder + "/starts", "a+") as starts:
        starts.write("1\n")
        starts.seek(0)
        start = len(starts.read().split()) - 1
    try:
        children = scripts(sys.argv[1])
        if start >= len(children):
            raise Wrong("a start too many")
        lines = children[start]
        for line, following in zip(lines, lines[1:] + [""]):
            # The client may end this process before the next line, so it is noted now that all went well.
            if following in ("killed", "silent"):
                player.note("well")
            player.do(line)
        player.expect("")
        player.end("exit")
    except Wrong as wrong:
        player.note("child %d: %s" % (start + 1, wrong))
        os._exit(99)


if __name__ == "__main__":
    main()
