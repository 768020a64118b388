#!/usr/bin/env python3
"""faults_calls.py KDB FOLDER STEP [COMMAND..]: each call of the system of each command fails, or is a kill, by strace.

Of the calls every STEPth is tried; of a batch, whose threads make calls of their own, that of the same number of each
thread. What must hold:

- EINTR changes nothing: status, out, err and files are those of a run without it; nor does EAGAIN at the lock, which is
  then tried again, or at a thread, without which sessions go one after the other; nor a failing close, since what was
  written is synced after it by a call that tells;
- any other failure is status 74 with its line on err and nothing on out, or comes behind the commit, or where the
  program may go on without that call, and changes nothing of what is told;
- whatever failed and whenever the run was killed, its files are the old ones or the new ones once the next run has
  opened the store, and the new ones where it told that they are stored; a batch tells a failure in its text, and its
  files are those behind the last set that it told as stored, or behind a later one;
- each file that a run stores is synced behind its last change, and its folder behind the last file that the run made in
  it, and once at least; a folder that is made is synced in the one above before anything is put into it.
"""
import collections
import concurrent.futures
import itertools
import os
import re
import signal
import sys

from faults_cases import cases
from faults_runs import Trials, cell, put_files, run, table

# The allocator's calls and the end of the program aren't failed, nor are calls by which threads wait and begin; but the
# program is killed at the latter, too, and it may be that no thread can be had.
NEVER = {"exit_group", "exit", "brk", "mmap", "munmap", "mremap", "madvise", "mprotect", "getrandom"}
OF_THREADS = {"futex", "clone", "clone3", "sched_yield", "set_robust_list", "rseq", "sched_getaffinity"}
MAY_WAIT = {"read", "write", "pread64", "pwrite64", "flock", "clone", "clone3"}
OF_PATHS = {"openat", "newfstatat", "statx", "mkdir", "fchmod", "fchown", "readlink"}

# for each failure what strace does, and which calls it can come of, None being all
FAULTS = {
    "ENOSPC": ("error=ENOSPC:when={}", None),
    "EIO": ("error=EIO:when={}", None),
    "a kill": ("signal=KILL:when={}", None),
    "EINTR": ("error=EINTR:when={}", None),
    "EAGAIN": ("error=EAGAIN:when={}", MAY_WAIT),
    "EMFILE": ("error=EMFILE:when={}", {"openat"}),
    "EACCES": ("error=EACCES:when={}", OF_PATHS),
    "full from there on": ("error=ENOSPC:when={}+", {"pwrite64", "mkdir"}),
    "dead from there on": ("error=EIO:when={}+", {"pwrite64", "pread64", "ftruncate", "fsync"}),
}

SOME_CALLS = """\
The same for failures that can come of some calls alone; and where all calls of one name fail from one on: such as write
where the device is full, such as read, write or sync where it is dead.
"""


def calls_in(trace):
    """The program's own calls in a trace, from its first one on, which opens the root: names, each with its number,
    which counts the calls of that name of one thread from the start."""
    number, own, seen = collections.Counter(), False, []
    for line in trace:
        call = re.match(r"(\d+) +([a-z0-9_]+)\(", line)
        if call:
            number[call.groups()] += 1
            own = own or 'openat(AT_FDCWD, "/", ' in line
            it = (call[2], number[call.groups()])
            if own and call[2] not in NEVER and it not in seen:
                seen.append(it)
    return seen


def failing(fault, name):
    """Whether a failure can come of a call."""
    at = FAULTS[fault][1]
    is_of_threads = name in OF_THREADS or name.startswith("rt_sig")
    return name in at if at else fault == "a kill" or not is_of_threads


def whole(trace):
    """The calls of a trace without the numbers of threads, each on one line where it ended."""
    begun = {}
    for line in trace:
        thread, call = line.rstrip("\n").split(None, 1)
        if call.endswith(" <unfinished ...>"):
            begun[thread] = call.removesuffix(" <unfinished ...>")
        else:
            resumed = re.match(r"<\.\.\. [a-z0-9_]+ resumed>", call)
            yield begun.pop(thread, "") + call[resumed.end():] if resumed else call


def unsynced(trace):
    """What isn't synced in a trace with the paths of descriptors."""
    changed, made, above, has_changed, are_names_kept = set(), 0, 0, False, False
    for at, call in enumerate(whole(trace), 1):
        name, path = call.split("(")[0], re.search(r"<([^>]*)>", call)
        if name in ("pwrite64", "ftruncate"):
            changed.add(path[1])
            has_changed = True
        elif name == "mkdir" and " = 0" in call:
            made = at
        elif name == "openat" and '.lock"' in call and "O_CREAT" in call and made > above:
            yield "a folder was made and not synced above before its lock"
        elif name == "openat" and "O_CREAT" in call and '.lock"' not in call and " = -1 " not in call:
            are_names_kept = False
        elif name == "fsync" and " = 0" in call:
            if path[1].endswith("/.kdb"):
                are_names_kept = True
            elif path[1] not in changed:
                above = at
            changed.discard(path[1])
    yield from (f"{it} was changed and not synced behind it" for it in changed)
    if has_changed and not are_names_kept:
        yield "a file may have been made, and the folder was not synced behind it"


def traced(case, *how):
    """The lines of a trace of a run."""
    with case.trials.folder() as folder:
        put_files(folder, case.begin)
        path = f"{folder}/trace"
        run(["strace", "-f", "-qq", *how, "-o", path, case.trials.kdb, *case.words], folder, case.given)
        with open(path, encoding="utf-8", errors="replace") as file:
            return file.readlines()


def try_one(case, fault, name, number):
    """Runs a command with one call failing, and opens the store again. The run, and which of its ends the files are."""
    at = f"{case.name}, {fault} at {name} {number}:"
    how = ["-e", f"trace={name}", "-e", f"inject={name}:{FAULTS[fault][0].format(number)}"]
    with case.trials.folder() as folder:
        put_files(folder, case.begin)
        ran = run(["strace", "-f", "-qq", "-o", "/dev/null", *how, case.trials.kdb, *case.words], folder, case.given)
        case.trials.next_opening(folder, at)
        return ran, case.left(folder)


def judged(case, fault, name, number, ran, left):
    goes_on = fault == "EINTR" or name == "close" or fault == "EAGAIN" and name in ("flock", "clone", "clone3")
    killed = signal.SIGKILL if fault == "a kill" else None
    # Threads don't always share the calls in the same way: a run may end before one of them comes to its number.
    case.judge(f"{fault} at {name} {number}", ran, left, may_fail=not goes_on and not killed, may_be_killed=killed)


def tried(case, pool, step):
    """For each failure what came of its runs."""
    own, found = calls_in(traced(case)), {}
    for it in unsynced(traced(case, "-y")):
        case.trials.complain(case.name, it)
    for fault in FAULTS:
        points = [it for it in own if failing(fault, it[0])][::step]
        ends = list(pool.map(lambda it: try_one(case, fault, *it), points))
        for point, (ran, left) in zip(points, ends):
            judged(case, fault, *point, ran, left)
        found[fault] = [(case.word(left), ran.status) for ran, left in ends]
        print(f"{case.name:9} {fault:19} {len(points):4}   {cell(found[fault])}", file=sys.stderr, flush=True)
    return found


def main():
    trials, step = Trials(*sys.argv[1:3]), int(sys.argv[3])
    with concurrent.futures.ThreadPoolExecutor(os.cpu_count()) as pool:
        found = {case.name: tried(case, pool, step) for case in cases(trials, sys.argv[4:])}
    print(f"""\
Each call of the system that a command makes fails alone, or the program is killed at it, and then the store is opened
again: {trials.tried:,} runs. What is counted is in how many cases the files are then the old or the new ones, and how
many of the failing calls the program told by status 74; no case left files that are neither. `first` is the first set
of all, `opened` a get over an open journal, which a kill left, `former` a get over that of a former program, and `mv`,
`merge` and `import` go over two files. `batch` makes three sets, each over two files; `amid` are those that are behind
one of the first two. `gen` has no files.
""")
    names = list(FAULTS)
    table(found, names[:4])
    print(SOME_CALLS)
    table(found, names[4:])
    trials.end()


main()
