#!/usr/bin/env python3
"""times.py RUNS COMMAND..: runs commands in turn, so many times each, and prints a line for each of them.

A line is three numbers in milliseconds: the median of its wall clock, the median of its processor time, and its least
wall clock. One more turn goes before, which isn't counted. A COMMAND is `WORDS`, `WORDS < FILE`, or either behind
`PREPARE ;; `: what is prepared is run before each of its runs and not timed. Nothing here is read by a shell.
"""
import os
import shlex
import statistics
import subprocess
import sys
import time


def parts(command):
    """The words that prepare, the words of the command, and the file that is its input."""
    before, _, timed = command.rpartition(" ;; ")
    words, _, file = timed.partition(" < ")
    return shlex.split(before), shlex.split(words), file or os.devnull


def once(words, file):
    """Runs a command once, and returns its wall clock and its processor time in milliseconds."""
    with open(file, "rb") as given:
        begun = time.perf_counter()
        ran = subprocess.Popen(words, stdin=given, stdout=subprocess.DEVNULL)
        _, status, use = os.wait4(ran.pid, 0)
        wall = time.perf_counter() - begun
    ran.returncode = os.waitstatus_to_exitcode(status)
    if ran.returncode:
        sys.exit(f"{shlex.join(words)} ends with {ran.returncode}")
    return wall * 1000, (use.ru_utime + use.ru_stime) * 1000


def main():
    runs, commands = int(sys.argv[1]), [parts(it) for it in sys.argv[2:]]
    taken = [[] for _ in commands]
    for turn in range(runs + 1):
        for at, (before, words, file) in enumerate(commands):
            if before:
                subprocess.run(before, stdin=subprocess.DEVNULL, stdout=subprocess.DEVNULL, check=True)
            spent = once(words, file)
            if turn:
                taken[at].append(spent)
    for it in taken:
        walls, cpus = zip(*it)
        print(f"{statistics.median(walls):.3f} {statistics.median(cpus):.3f} {min(walls):.3f}")


main()
