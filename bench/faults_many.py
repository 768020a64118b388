#!/usr/bin/env python3
"""faults_many.py KDB FOLDER SECONDS WHERE: twenty workers run the program over one store at one time, with many kills.

Each worker sets, removes and moves keys of its own, sets two of them in two files by batches of two sets, looks at all
of them at once, and sets and removes keys that all workers share. Some runs get a SIGKILL at a random moment, and every
now and then one is aimed at the run that holds the folder's lock just then. Of a long trial one run that holds it is
stopped for longer than others wait for it, and goes on then. A run is acknowledged where it ends with status 0. What
must hold:

- of its own keys each worker always finds what its last acknowledged run left, or what the runs behind that one, which
  were killed or failed, may have left in their order; and a look settles which, for good;
- a shared key has in the end what some run gave it, and no acknowledged run began behind that one's end;
- a run ends with 0, with 11 where the key isn't there, by a kill, or with 74 behind ten seconds without the lock.

It prints a row of a table: what is lost is how often one of the first two didn't hold.
"""
import collections
import concurrent.futures
import contextlib
import os
import random
import re
import signal
import sys
import threading
import time

from faults_runs import Trials, run
from faults_workers import LONGEST_WAIT, SHARED, Worker, may_have

WORKERS = 20
# Workers share four files, of three formats, by their numbers.
MOUNTS = ["mount g1.ini user:/g1 simpleini", "mount g2.json user:/g2 json", "mount g3.ecf user:/g3"]


class Live:
    """The runs that are going on, each with a handle by which no other process can be killed."""

    def __init__(self, store):
        self.lock, self.runs, self.lock_file = threading.Lock(), {}, f"{store}/.lock"

    def add(self, process):
        with self.lock:
            self.runs[process.pid] = os.pidfd_open(process.pid)

    def gone(self, process):
        with self.lock:
            os.close(self.runs.pop(process.pid))

    def send(self, pid, number):
        """Sends a run a signal, unless it has ended."""
        with self.lock, contextlib.suppress(ProcessLookupError):
            if pid in self.runs:
                signal.pidfd_send_signal(self.runs[pid], number)
                return True
        return False

    def holder(self):
        """The run that holds the folder's lock just now."""
        inode = os.stat(self.lock_file).st_ino
        with open("/proc/locks", encoding="utf-8") as file:
            held = re.search(rf"^\d+: FLOCK +ADVISORY +WRITE (\d+) \S+:{inode} ", file.read(), re.M)
        return int(held[1]) if held else 0

    def kill_holder(self):
        return self.send(self.holder(), signal.SIGKILL)

    def stop_holder(self, seconds):
        """Has the run that holds the lock stand still for so long; whether it held it all the while."""
        pid, until = self.holder(), time.monotonic() + seconds
        if not self.send(pid, signal.SIGSTOP):
            return False
        while time.monotonic() < until and self.holder() == pid:
            time.sleep(0.05)
        self.send(pid, signal.SIGCONT)
        return time.monotonic() >= until


def main():
    trials, seconds, where = Trials(*sys.argv[1:3]), float(sys.argv[3]), sys.argv[4]
    with trials.folder() as folder:
        for line in MOUNTS:
            run([trials.kdb, *line.split()], folder)
        live, until = Live(f"{folder}/.kdb"), time.monotonic() + seconds
        workers = [Worker(at, trials, folder, live, until) for at in range(WORKERS)]
        aimed, aim, was_stopped = 0, random.Random(0), seconds < 6 * LONGEST_WAIT
        with concurrent.futures.ThreadPoolExecutor(WORKERS) as pool:
            done = [pool.submit(it.run) for it in workers]
            while time.monotonic() < until:
                time.sleep(aim.uniform(0, 0.2))
                aimed += live.kill_holder()
                if not was_stopped and time.monotonic() > until - seconds / 2:
                    was_stopped = live.stop_holder(LONGEST_WAIT + 1)
            for it in done:
                it.result()
        for it in workers:
            if it.look(kills=False):
                trials.complain("the last look of worker", it.number, "fails")
        counts = sum((it.counts for it in workers), collections.Counter())
        changes = [change for it in workers for change in it.changes]
        for at in range(SHARED):
            ran = run([trials.kdb, "get", f"user:/shared/k{at}"], folder)
            value = ran.out.decode().strip() or None
            if not may_have(changes, f"user:/shared/k{at}", value):
                trials.complain(f"the shared key {at} has {value}")
                counts["lost"] += 1
    trials.tried = counts["runs"]
    counts["aimed"] = aimed
    columns = ["runs", "acknowledged", "killed", "aimed", "looks", "waited", "lost"]
    print(f"| {where} |", " | ".join(f"{counts[it]:,}" for it in columns), "|")
    trials.end()


main()
