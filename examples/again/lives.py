"""What each life of a cluster wrote, joined to one transcript with a section for each life. Used by `run`."""
import os
import subprocess
import sys

from cluster import HERE, NODES, need

JOIN = os.path.join(os.path.dirname(HERE), "audited", "join")


class Lives:
    """The logs of the nodes of a cluster, life by life."""

    def __init__(self, cluster):
        self.cluster, self.folders, self.read = cluster, [], {}

    def end(self):
        """Puts aside what the nodes wrote since the last life ended. All of them have ended."""
        folder = os.path.join(self.cluster.place, "lives", str(len(self.folders)))
        os.makedirs(folder)
        for node in map(str, NODES):
            text = self.cluster.log(node)
            with open(os.path.join(folder, node), "w") as into:
                into.write(text[self.read.get(node, 0):])
            self.read[node] = len(text)
        self.folders.append(folder)

    def transcript(self):
        """One section for each life. Its lines and times go on behind those of the lives before."""
        lines, line, time = [], 0, 0
        for number, folder in enumerate(self.folders):
            logs = [os.path.join(folder, node) for node in map(str, NODES)]
            joined = subprocess.run([sys.executable, JOIN, *logs], capture_output=True, text=True)
            if joined.returncode:
                need("no report" in joined.stderr, "a life is joined: %s" % joined.stderr.strip())
                continue  # it was cut before anybody reported anything
            lines.append("transcript %d" % number)
            before, ended = line, time
            for text in joined.stdout.splitlines()[1:]:
                at, word, rest = text.split(" ", 2)
                line = before + int(at)
                if word != "clocks":
                    time = ended + int(word)
                    word = str(time)
                lines.append("%d %s %s" % (line, word, rest))
        return "\n".join(lines) + "\n"

    def audit(self, program):
        """What `fabric audit` says of all lives."""
        path = os.path.join(self.cluster.place, "transcript")
        with open(path, "w") as into:
            into.write(self.transcript())
        with open(path) as source:
            done = subprocess.run([program, "audit"], stdin=source, capture_output=True, text=True)
        verdict = done.stdout.strip()
        need(done.returncode == 0 and verdict.startswith("safe "), "the audit of %s says %s" % (path, verdict))
        return verdict
