"""The workers of bench/faults_many.py, and what they may find: of their own keys always, of shared ones in the end."""
import collections
import random
import re
import signal
import subprocess
import time

from faults_cases import DISK_FAULT

OWN, SHARED = 4, 3  # keys of each worker, beside a pair; and of all
KILLED, LONGEST_WAIT = 0.25, 10  # how many of the runs are killed; how many seconds a run waits for the lock

# one run that may change a shared key: the value, None being that it is gone; and when it began and ended
Change = collections.namedtuple("Change", "key value begun ended acknowledged")


class Worker:
    """Runs one program after the other, and keeps what its own keys may hold: a set of states, each a value a key."""

    def __init__(self, number, trials, folder, live, until):
        self.number, self.trials, self.folder, self.live, self.until = number, trials, folder, live, until
        self.random = random.Random(number)
        group = f"user:/g{number % 4}/w{number}"
        self.names = [*(f"{group}/k{at}" for at in range(OWN)), f"user:/pair/w{number}", f"system:/pair/w{number}"]
        self.states = {(None,) * len(self.names)}
        self.given = trials.file(b"")
        # usual is how many seconds a run takes that isn't killed
        self.changes, self.counts, self.turn, self.usual = [], collections.Counter(), 0, 0.05

    def run(self):
        steps = [self.set_own] * 4 + [self.remove_own, self.move_own, self.set_pair, self.set_pair, self.look]
        while time.monotonic() < self.until:
            self.turn += 1
            self.random.choice([*steps, self.change_shared, self.change_shared])()

    def program(self, words, given=b"", kills=True):
        """Runs the program, which may be killed at a random moment: its status, what it put on out, and when it ran."""
        with open(self.given, "wb") as file:
            file.write(given)
        begun = time.monotonic()
        with open(self.given, "rb") as source:
            process = subprocess.Popen([self.trials.kdb, *words], cwd=self.folder, stdin=source, stdout=subprocess.PIPE,
                                       stderr=subprocess.PIPE)
        self.live.add(process)
        is_killed = kills and self.random.random() < KILLED
        try:
            out, err = process.communicate(timeout=self.random.uniform(0, 2 * self.usual) if is_killed else None)
        except subprocess.TimeoutExpired:
            self.live.send(process.pid, signal.SIGKILL)
            out, err = process.communicate()
        self.live.gone(process)
        ended, status = time.monotonic(), process.returncode
        if status == 0:
            self.usual = 0.9 * self.usual + 0.1 * (ended - begun)
        self.counts["runs"] += 1
        self.counts["killed"] += status == -signal.SIGKILL
        self.counts["waited"] += status == 74
        if status == 74 and (err != DISK_FAULT or ended - begun < LONGEST_WAIT):
            self.trials.complain(f"{words} ends with 74 in {ended - begun:.1f} s:", err)
        if status not in (0, 11, 74, -signal.SIGKILL) or status == 0 and err:
            self.trials.complain(f"{words} ends with {status}:", out, err)
        return status, out, begun, ended

    def lost(self, *words):
        self.counts["lost"] += 1
        self.trials.complain(f"worker {self.number}:", *words)

    def narrow(self, keep, *words):
        """Keeps the states of which that holds. There is one, unless something was lost."""
        kept = {it for it in self.states if keep(it)}
        if not kept:
            self.lost(*words, "where the keys may hold", self.states)
        self.states = kept or self.states

    def change(self, status, changes):
        """Has a run with these changes, one behind the other, happen: all of them, or of an unacknowledged run some."""
        reached = [self.states]
        for changed in changes:
            reached.append({changed(it) for it in reached[-1]})
        self.states = reached[-1] if status == 0 else set().union(*reached)
        self.counts["acknowledged"] += len(changes) if status == 0 else 0

    def given_to(self, at, value):
        return lambda it: (*it[:at], value, *it[at + 1:])

    def value(self):
        return f"{self.number}-{self.turn}"

    def set_own(self):
        at = self.random.randrange(OWN)
        status, out, *_ = self.program(["set", self.names[at], self.value()])
        if status == 0:
            is_new = out.startswith(b"Create")
            self.narrow(lambda it: (it[at] is None) == is_new, self.names[at], "is new" if is_new else "was there")
        self.change(status, [self.given_to(at, self.value())])

    def remove_own(self):
        at = self.random.randrange(OWN)
        status, *_ = self.program(["rm", self.names[at]])
        if status in (0, 11):
            self.narrow(lambda it: (it[at] is None) == (status == 11), f"rm {self.names[at]} ends with {status}")
        self.change(status, [self.given_to(at, None)] if status != 11 else [])

    def move_own(self):
        source, target = self.random.sample(range(OWN), 2)
        status, *_ = self.program(["mv", self.names[source], self.names[target]])
        if status in (0, 11):
            said = f"mv {self.names[source]} ends with {status}"
            self.narrow(lambda it: (it[source] is None) == (status == 11), said)

        def moved(it):
            return self.given_to(source, None)(self.given_to(target, it[source])(it)) if it[source] else it
        self.change(status, [moved] if status != 11 else [])

    def set_pair(self):
        """Two sets over two files: both keys have one value at any time."""
        values = [f"{self.value()}-{at}" for at in (1, 2)]
        sets = "".join(f"put {self.names[OWN]} {it}\nput {self.names[OWN + 1]} {it}\nset /\n" for it in values)
        status, out, *_ = self.program(["batch"], f"session 1\nget /\n{sets}".encode())
        if status == 0 and len(re.findall(rb"^commit \d+ aside \d+$", out, re.M)) != 2:
            self.lost("a batch tells", out)
        self.change(status, [lambda it, value=value: (*it[:OWN], value, value) for value in values])

    def look(self, kills=True):
        """Looks at all own keys in one turn."""
        looks = "".join(f"look {name}\n" for name in self.names)
        status, out, *_ = self.program(["batch"], f"session 1\nget /\n{looks}".encode(), kills)
        if status == 0:
            found = re.findall(rb'^(?:found \S+ "(.*)"|none)$', out, re.M)
            now = tuple(it.decode() or None for it in found)
            self.narrow(lambda it: it == now, "has", now)
            self.states = {now}
            self.counts["looks"] += 1
        return status

    def change_shared(self):
        key = f"user:/shared/k{self.random.randrange(SHARED)}"
        value = self.value() if self.random.random() < 0.8 else None
        words = ["set", key, value] if value else ["rm", key]
        status, _, begun, ended = self.program(words)
        if status != 11:
            self.changes.append(Change(key, value, begun, ended, status == 0))
            self.counts["acknowledged"] += status == 0


def may_have(changes, key, value):
    """Whether a shared key may have a value in the end, by the changes that were made to it."""
    of_key = [it for it in changes if it.key == key]
    last = max((it.begun for it in of_key if it.acknowledged), default=0)
    return any(it.value == value and it.ended >= last for it in [Change(key, None, 0, 0, False), *of_key])
