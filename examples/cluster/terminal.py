"""What an operator types: a shell that runs the commands of the page, and a terminal in which bin/watch is captured."""
import re
import shutil
import subprocess
import time
import uuid

END = "the-command-is-done"


class Shell:
    """A shell that runs one command after the other, as a terminal does, and gives what each prints."""

    def __init__(self, folder, environment):
        self.process = subprocess.Popen(
            ["bash", "--noprofile", "--norc"], cwd=folder, env=environment, text=True,
            stdin=subprocess.PIPE, stdout=subprocess.PIPE, stderr=subprocess.STDOUT,
        )

    def run(self, command):
        """The lines that a command prints, without those of the shell about processes that were killed."""
        self.process.stdin.write(f"{command}\necho {END} $?\n")
        self.process.stdin.flush()
        lines = []
        for line in self.process.stdout:
            if line.startswith(END):
                return lines
            if not re.match(r"bash: line [0-9]+: +[0-9]+ Killed", line):
                lines.append(line.rstrip("\n"))
        raise EOFError(f"the shell ended at: {command}")

    def started(self):
        """The numbers of the processes that it started and that run."""
        return [int(it) for it in self.run("jobs -rp")]

    def end(self):
        self.process.stdin.close()
        self.process.wait(10)


class Screen:
    """A terminal of tmux with one command, or the plain text of `bin/watch --once` where there is no tmux."""

    def __init__(self, command, once, environment, width=100, height=26):
        self.once, self.environment, self.name = once, environment, None
        if shutil.which("tmux"):
            self.name = f"fabric-{uuid.uuid4().hex[:8]}"
            size = ["-x", str(width), "-y", str(height)]
            subprocess.run(["tmux", "-L", self.name, "-f", "/dev/null", "new-session", "-d", *size, command],
                           env=environment, check=True)

    def capture(self):
        """The lines on the screen."""
        if not self.name:
            return subprocess.run(self.once, shell=True, env=self.environment, text=True,
                                  stdout=subprocess.PIPE).stdout.splitlines()
        shown = subprocess.run(["tmux", "-L", self.name, "capture-pane", "-p"], text=True, stdout=subprocess.PIPE)
        return [line.rstrip() for line in shown.stdout.rstrip("\n").splitlines()]

    def await_that(self, holds, seconds):
        """Captures until the screen shows something; the last capture, and whether it did."""
        until = time.monotonic() + seconds
        while True:
            lines = self.capture()
            if holds("\n".join(lines)):
                return lines, True
            if time.monotonic() > until:
                return lines, False
            time.sleep(0.2)

    def end(self):
        if self.name:
            subprocess.run(["tmux", "-L", self.name, "kill-server"], stderr=subprocess.DEVNULL)
