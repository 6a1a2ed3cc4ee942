"""What is done to a cluster: services and nodes are killed and stopped, mostly between a line and its `done`."""
import os
import random
import signal
import threading
import time

from cluster import ARBITERS, LEASE, PARTITIONS, kill_process, now

PAST = 4 * LEASE / 1000  # seconds after which another node has taken over, if one can
WITHOUT = 8 * LEASE / 1000  # seconds for which a node is not back, or nobody manages, after which the ring begins again
TURN = 10 * PAST  # seconds for which one is the victim, if no kill comes between a line and its `done`
POLL = "7"  # the number of this call of the system on x86-64


def is_resting(process):
    """Whether a stopped process stopped in its rest, where it waits for what comes.

    A turn that takes longer than `grain` breaks a premise of the fabric: a node is never stopped for long within one.
    """
    try:
        with open("/proc/%d/syscall" % process) as file:
            words = file.read().split()
    except OSError:
        return False
    return words[0] == POLL and int(words[3], 16) != 0


def send(process, what):
    try:
        os.kill(process, what)
    except ProcessLookupError:
        pass


def stop_at_rest(child):
    """Whether the node stands still. Where it does not rest, it goes on at once, and this is tried again."""
    for _ in range(100):
        send(child, signal.SIGSTOP)
        time.sleep(0.001)
        if is_resting(child):
            return True
        send(child, signal.SIGCONT)
        time.sleep(0.003)
    return False


class Harm:
    """`chances` says how likely each end of a stop is, and `acts` what is done at other moments.

    `pause` is how long it takes from one of these acts to the next, and `gives` from one command `give` to the next.
    """

    def __init__(self, chances, acts, pause, gives):
        self.chances, self.acts, self.pause, self.gives = chances, acts, pause, gives
        self.cluster, self.states, self.is_on, self.is_busy, self.victim = None, {}, False, False, 1
        names = ("stops", "losing", "promised", "service", "child", "kills", "past", "begun")
        self.counts = {name: 0 for name in names}

    def count(self, *names):
        for name in names:
            self.counts[name] += 1

    def may_harm(self, service):
        """While the two others are well, the ring and the partitions go on. So one is the victim, for some time."""
        others_are_well = all(self.states.get(it.number) for it in self.cluster.services if it is not service)
        return self.is_on and service.number == self.victim and others_are_well

    # ---- Between a line of a node and its `done`. ----

    def stopped(self, service, process, handler):
        self.count("stops")
        may = self.may_harm(service)
        what = random.choices(("go", "service", "child", "past"), self.chances[handler])[0] if may else "go"
        child = service.child()
        if what == "go" or child is None:
            service.go_on(process)
            return
        self.states[service.number] = None
        if what == "past":
            self.count("past")
            self.whole = now() + PAST
            threading.Timer(PAST, service.go_on, [process]).start()
            return
        self.count("kills", handler, what)
        if what == "service":
            process.kill()
        else:
            kill_process(child)
            service.go_on(process)
        self.rotate()

    # ---- At any other moment. ----

    def target(self):
        return self.cluster.services[self.victim - 1]

    def act(self):
        service = self.target()
        child = service.child() if service.is_running() else None
        if child and self.may_harm(service):
            getattr(self, random.choice(self.acts))(service, service.process.pid, child)
        self.is_busy = False

    def kill_service(self, service, process, child):
        self.states[service.number] = None
        self.count("kills")
        send(process, signal.SIGKILL)

    def kill_child(self, service, process, child):
        self.states[service.number] = None
        self.count("kills")
        send(child, signal.SIGKILL)

    def kill_arbiter(self, *_):
        number = random.choice(ARBITERS)
        self.count("kills")
        self.cluster.kill_arbiter(number)
        time.sleep(random.uniform(0, 1))
        self.cluster.start_arbiter(number)

    def stop_service(self, service, process, child):
        self.states[service.number] = None
        self.count("past")
        send(process, signal.SIGSTOP)
        time.sleep(random.uniform(0.5, 1.5) * PAST)
        send(process, signal.SIGCONT)

    def stop_child(self, service, process, child):
        if stop_at_rest(child):
            self.states[service.number] = None
            self.count("past")
            time.sleep(random.uniform(0.5, 1.5) * PAST)
        send(child, signal.SIGCONT)

    def stop_both(self, service, process, child):
        send(process, signal.SIGSTOP)
        self.stop_child(service, process, child)
        send(process, signal.SIGCONT)

    def leave_answer(self, service, process, child):
        """The service asks, and its answer stays in the pipe until another node has taken over what it says."""
        if stop_at_rest(child):
            self.states[service.number] = None
            self.count("past", "kills")
            time.sleep(LEASE / 3000)  # some span ends, and the service asks
            send(process, signal.SIGSTOP)
            send(child, signal.SIGCONT)
            time.sleep(0.2)  # the node answers
            send(child, signal.SIGKILL)
            time.sleep(1.5 * PAST)
        send(child, signal.SIGCONT)
        send(process, signal.SIGCONT)

    # ---- All the time. ----

    def run(self, cluster, seconds):
        """Harms for so long. What has ended starts again, and primaries move."""
        self.cluster, self.is_on, self.turn = cluster, True, now() + TURN
        until = now() + seconds
        due = {what: now() for what in (self.look, self.swap, self.give)}
        due[self.begin_act] = now() + PAST
        self.whole = now() + WITHOUT
        while now() < until:
            self.restart()
            for what in due:
                if now() >= due[what]:
                    due[what] = now() + what()
            if now() >= self.turn:
                self.rotate()
            if now() > self.whole + WITHOUT and not self.is_busy:
                self.begin_again()
            time.sleep(0.02)
        self.is_on = False
        while self.is_busy:
            time.sleep(0.1)

    def restart(self):
        for it in self.cluster.services:
            if not it.is_running():
                self.states[it.number] = None
                it.start()

    def look(self):
        """What the nodes say. One that does not route counts as harmed. Before all are up nothing is judged."""
        said = {it.number: it.state() for it in self.cluster.services}
        for number, state in said.items():
            self.states[number] = state if state and state.phase == "routing" else None
        known = [state for state in said.values() if state and state.phase == "routing"]
        is_whole = self.manager() and len(known) == len(said) and sum(it.share() for it in known) > 0.5
        if is_whole or self.is_busy or None in said.values():
            self.whole = max(self.whole, now())
        return 0.25

    def manager(self):
        known = [(it, self.states.get(it.number)) for it in self.cluster.services]
        return next((it for it, state in known if state and state.manages()), None)

    def swap(self):
        """Primaries move to the victim, and away from it once it may be harmed. So it promises other epochs."""
        service, victim, manager = self.target(), self.states.get(self.victim), self.manager()
        known = self.states.get(manager.number) if manager else None
        if known and victim:
            still = set(range(PARTITIONS[0], PARTITIONS[1] + 1)) - known.changing
            led = {partition for partition in still if victim.roles.get(partition) == "primary"}
            others = [n for n, state in list(self.states.items()) if state and n != self.victim]
            if led and others and self.may_harm(service):
                manager.ask("swap %d %d" % (random.choice(sorted(led)), random.choice(others)), 0.01)
            elif still - led and len(led) < 2:
                manager.ask("swap %d %d" % (random.choice(sorted(still - led)), self.victim), 0.01)
        return 0.1

    def give(self):
        """The victim gives all that it owns to another node."""
        service = self.target()
        if not self.may_harm(service):
            return 0.1
        to = random.choice([it.number for it in self.cluster.services if it is not service])
        service.ask("give %d all" % to, 0.01)
        return random.uniform(*self.gives)

    def rotate(self):
        """Another one is the victim: after each kill between a line and its `done`, and else after some time."""
        if not self.is_busy:
            self.victim = self.victim % len(self.cluster.services) + 1
        self.turn = now() + TURN

    def begin_act(self):
        if self.is_busy or not self.may_harm(self.target()):
            return 0.1
        self.is_busy = True
        threading.Thread(target=self.act, daemon=True).start()
        return random.uniform(*self.pause)

    def begin_again(self):
        """What was on its way to another node when its node ended has no holder any more, and never will have."""
        self.is_on, self.states = False, {}
        self.count("begun")
        self.cluster.begin_again()
        self.is_on, self.whole = True, now() + WITHOUT
