#!/usr/bin/env python3
"""faults_sizes.py KDB FOLDER STEP [COMMAND..]: files may have so many bytes and no more (RLIMIT_FSIZE).

Each number of bytes up to one that no file needs is tried, or every STEPth: so a write is cut short at each of its
bytes, and then it fails, or a signal ends the program. What must hold is what must where a call fails, or where the
program is killed (bench/faults_calls.py).
"""
import concurrent.futures
import os
import signal
import sys

from faults_cases import cases
from faults_runs import Trials, cell, put_files, run, table

STORING = ["set", "mv", "first", "import", "opened", "batch"]

LIMITED = """
Files may have so many bytes and no more, for each number up to one that none needs: so a write is cut short at each of
its bytes, and then it fails, or a signal ends the program.
"""


def limited(case, most, signals):
    """A run whose files may have so many bytes. Behind them a write fails, or a signal ends the program."""
    at = f"files of {most} bytes, {'with' if signals else 'without'} a signal"
    with case.trials.folder() as folder:
        put_files(folder, case.begin)
        # This script ignores the signal, as each of python does, and hands that on unless it is to restore it.
        limit = ["prlimit", f"--fsize={most}"]
        ran = run([*limit, case.trials.kdb, *case.words], folder, case.given, restore_signals=signals)
        case.trials.next_opening(folder, f"{case.name}, {at}:")
        left = case.left(folder)
        case.judge(at, ran, left, may_be_killed=signal.SIGXFSZ if signals else None)
        return case.word(left), ran.status


def sweep(case, pool, step):
    """For both ways of a limit what came of all numbers of bytes, up to one that no file exceeds."""
    with case.trials.folder() as folder:
        put_files(folder, case.begin)
        run([case.trials.kdb, *case.words], folder, case.given)
        largest = max(os.path.getsize(f"{folder}/.kdb/{name}") for name in os.listdir(f"{folder}/.kdb"))
    numbers = range(0, largest + 2, step)
    return {"it fails": list(pool.map(lambda it: limited(case, it, False), numbers)),
            "a signal": list(pool.map(lambda it: limited(case, it, True), numbers))}


def main():
    trials, step = Trials(*sys.argv[1:3]), int(sys.argv[3])
    with concurrent.futures.ThreadPoolExecutor(os.cpu_count()) as pool:
        found = {case.name: sweep(case, pool, step) for case in cases(trials, sys.argv[4:] or STORING)}
    print(LIMITED)
    table(found, ["it fails", "a signal"])
    trials.end()


main()
