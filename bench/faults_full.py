#!/usr/bin/env python3
"""faults_full.py KDB FOLDER STEP: file systems fill up under a set, and in the middle of batches.

They are of a few pages (tmpfs). A batch makes its files larger with each of its sets; or another program takes the room
that is left, and gives it back, again and again while the batch runs. Then the files are copied to a file system with
more room, and their own is made larger too. What must hold:

- a set that finds no room ends with 74 and its line, and the files are the old ones;
- a batch tells each of its sets as stored, or as refused by a fault of the disk, and ends with 74 where one was;
- once there is room, the next opening goes well, every set that was told as stored is there, and each is there whole.

Of the sizes every STEPth is tried. Wants the right to mount.
"""
import contextlib
import os
import random
import re
import shutil
import subprocess
import sys
import threading

from fair_files import JOURNAL, open_entries
from faults_cases import DISK_FAULT
from faults_runs import Trials, put_files, run

PAGE = 4096
SETS = 40
VALUE = "v" * 1500

FILLED = f"""
Batches of {SETS} sets of each session, each of which adds a key of 1,500 bytes, on file systems of one page and more;
beside another program that fills them up and makes room again and again, and without one. Then these have more room. A
set told as stored that isn't there, or isn't there whole, is lost.

| the sets | file systems | told as stored | refused | journals left open | lost |
|---|---|---|---|---|---|"""


def mounted(folder, pages, more=()):
    """Mounts a file system of so many pages, or gives one that many."""
    how = ["mount", "-t", "tmpfs", "-o", ",".join([*more, f"size={pages * PAGE}"]), "none", folder]
    return subprocess.run(how, stderr=subprocess.DEVNULL, check=False).returncode == 0


def unmounted(folder):
    subprocess.run(["umount", folder], check=True)


def one_set(trials, pages, left):
    """A set where so many pages are left, and the files behind it."""
    folder, at = f"{trials.work}/full", f"a set on a full file system with {left} pages left:"
    mounted(folder, pages)
    put_files(folder, {"user.ecf": b"kdbOpen 2\n$key string 4 1\nsw/a\n1\n$end\n"})
    with open(f"{folder}/filler", "wb") as file:
        # The page of user.ecf counts, and one page each for what is left.
        file.write(bytes((pages - 1 - left) * PAGE))
    ran = run([trials.kdb, "set", "user:/sw/a", "v" * 20000], folder)
    os.remove(f"{folder}/filler")
    trials.next_opening(folder, at)
    value = run([trials.kdb, "get", "user:/sw/a"], folder).out
    trials.count()
    if ran != (74, b"", DISK_FAULT) or value != b"1\n":
        trials.complain(at, ran, value[:20])
    unmounted(folder)
    files = "old" if value == b"1\n" else "other ones"
    return f"| {left} | status {ran.status}, `{ran.err.decode().strip()}` | {files} |"


def growing(sessions):
    """A batch of sets, each of which adds a key: of two sessions to a file each, or of one to both files."""
    lines = []
    for number, spaces in enumerate([["user"], ["system"]] if sessions == 2 else [["user", "system"]], 1):
        parent = f"{spaces[0]}:/" if sessions == 2 else "/"
        lines += [f"session {number}", f"get {parent}"]
        for turn in range(1, SETS + 1):
            lines += [*(f"put {space}:/k{turn:02} {VALUE}" for space in spaces), f"set {parent}"]
    return "\n".join([*lines, ""]).encode()


def told_by(out):
    """For each session the last set that it told as stored, and how many it told so."""
    last, told = {}, 0
    for part in re.split(rb"^session ", out.split(b"\nhistory ")[0], flags=re.M)[1:]:
        replies = re.findall(rb"^(?:commit|refused) .*$", part, re.M)
        stored = [at for at, it in enumerate(replies, 1) if it.startswith(b"commit")]
        last[int(part.split(b"\n")[0])] = max(stored, default=0)
        told += len(stored)
    return last, told


def there(trials, folder, space):
    """How many of the sets' keys a file has, from the first on; -1 where they are anything else."""
    out = run([trials.kdb, "export", f"{space}:/", "simpleini"], folder).out.decode()
    keys = out.count("\n")
    return keys if out == "".join(f"k{at:02} = {VALUE}\n" for at in range(1, keys + 1)) else -1


def missing(trials, folder, sessions, last):
    """How many sets that were told as stored are not there, or in one of two files alone."""
    trials.next_opening(folder, f"{sessions} sessions on a file system that filled up, with more room:")
    found = [there(trials, folder, space) for space in ("user", "system")]
    if sessions == 1:
        return max(last[1] - min(found), 0) + abs(found[0] - found[1])
    return sum(max(last[number] - has, 0) for number, has in enumerate(found, 1))


class Filler(threading.Thread):
    """Takes all room of a folder and gives it back, each for a moment, until it is stopped."""

    def __init__(self, folder):
        super().__init__()
        self.path, self.is_over, self.random = f"{folder}/filler", threading.Event(), random.Random(folder)

    def run(self):
        while not self.is_over.wait(self.random.uniform(0, 0.01)):
            with open(self.path, "wb", buffering=0) as file, contextlib.suppress(OSError):
                while not self.is_over.is_set():
                    file.write(bytes(16 * PAGE))
            self.is_over.wait(self.random.uniform(0, 0.01))
            os.remove(self.path)

    def end(self):
        self.is_over.set()
        self.join()


def has_open_journal(folder):
    """Whether entries wait in the journal of a store."""
    path = f"{folder}/.kdb/journal2"
    with open(path if os.path.exists(path) else os.devnull, "rb") as file:
        return bool(open_entries({JOURNAL: file.read()}))


def filled(trials, sessions, pages, is_shared=False):
    """A batch on a file system of so many pages: how many sets it told as stored, how many as refused, whether it left
    its journal open, and how many sets are lost."""
    folder, large = f"{trials.work}/full", f"{trials.work}/large"
    at = f"{sessions} sessions on a file system of {pages} pages{', beside a filler' * is_shared}:"
    mounted(folder, pages)
    filler = Filler(folder)
    if is_shared:
        filler.start()
    ran = run([trials.kdb, "batch"], folder, trials.file(growing(sessions)))
    if is_shared:
        filler.end()
    last, told = told_by(ran.out)
    refused = len(re.findall(rb"^refused C01100 disk-fault front \d+$", ran.out, re.M))
    trials.count()
    if ran.status != (74 if refused else 0) or ran.err or told + refused != SETS * sessions:
        trials.complain(at, ran.status, ran.err, told, "told and", refused, "refused")
    shutil.rmtree(large, ignore_errors=True)
    os.makedirs(f"{folder}/.kdb", exist_ok=True)
    is_open = has_open_journal(folder)
    shutil.copytree(f"{folder}/.kdb", f"{large}/.kdb")
    mounted(folder, 4096, ["remount"])
    lost = [missing(trials, it, sessions, last) for it in (large, folder)]
    if any(lost):
        trials.complain(at, lost, "sets lost of", last)
    unmounted(folder)
    return told, refused, is_open, sum(lost)


def main():
    trials, step = Trials(*sys.argv[1:3]), int(sys.argv[3])
    os.mkdir(f"{trials.work}/full")
    if mounted(f"{trials.work}/full", 8):
        unmounted(f"{trials.work}/full")
        print("| pages left on a file system | a `set` of 20,000 bytes there | the files |\n|---|---|---|")
        for left in range(4):
            print(one_set(trials, 8, left))
        print(FILLED)
        for sessions, said in (1, "one session, over two files"), (2, "two sessions, over a file each"):
            for is_shared in False, True:
                sizes = range(1, 500, 9 * step)
                ends = [filled(trials, sessions, pages, is_shared) for pages in sizes]
                counts = " | ".join(f"{sum(it):,}" for it in zip(*ends))
                print(f"| {said}{'; beside another program' * is_shared} | {len(sizes)} | {counts} |", flush=True)
    else:
        print("Full file systems were not tried, since none can be mounted here.")
    trials.end()


main()
