#!/usr/bin/env python3
"""faults_short.py KDB FOLDER STEP SHORT [COMMAND..]: reads and writes take fewer bytes than they are asked to.

SHORT is bench/faults_short.c as a library, which is loaded in front of the C library: it shortens the calls themselves.
What must hold:

- where each read and write takes some bytes at most, or one takes half of its own, nothing changes: the rest is asked
  for again, so status, out, err and files are those of a run whose calls take all;
- where one takes half and the next fails, as on a disk that fills up, it is as where a call fails
  (bench/faults_calls.py); and where the program is killed behind the half, the files are old or new once the next run
  has opened the store.

Of the reads and writes every STEPth is tried.
"""
import concurrent.futures
import errno
import os
import signal
import sys

from faults_cases import cases
from faults_runs import Trials, cell, put_files, run, table

# for each way how many bytes calls take at most, else none; and what becomes of the call behind a half, if anything
MOST = {f"{most} bytes at most": most for most in (1, 2, 7, 100)}
HALF = {"half": 0, "half, then ENOSPC": errno.ENOSPC, "half, then a kill": -1}


def shortened(case, short, **words):
    """A run whose reads and writes are shortened; which of its ends the files are; how many calls there were, and how
    many were cut short."""
    with case.trials.folder() as folder:
        put_files(folder, case.begin)
        told = f"{folder}/told"
        with open(told, "wb") as file:
            file.write(bytes(16))
        how = {f"SHORT_{word}": str(value) for word, value in words.items()}
        ran = run([case.trials.kdb, *case.words], folder, case.given,
                  env={**os.environ, **how, "SHORT_TOLD": told, "LD_PRELOAD": short})
        case.trials.next_opening(folder, f"{case.name}, {words}:")
        with open(told, "rb") as file:
            calls, cut = (int.from_bytes(file.read(8), "little") for _ in range(2))
        return ran, case.left(folder), calls, cut


def tried(case, pool, short, step):
    """How many reads and writes a command makes, and for each way what came of its runs."""
    found, trials = {}, case.trials
    _, _, calls, _ = shortened(case, short)
    for way, most in MOST.items():
        ran, left, _, cut = shortened(case, short, MOST=most)
        case.judge(way, ran, left, may_fail=False)
        if most == 1 and not cut:
            trials.complain(case.name, "no read or write goes by the C library, so none was cut short")
        found[way] = [(case.word(left), ran.status)]
    for way, then in HALF.items():
        points = range(1, calls + 1, step)
        ends = list(pool.map(lambda at: shortened(case, short, AT=at, THEN=then), points))
        for at, (ran, left, _, _) in zip(points, ends):
            kill = signal.SIGKILL if then < 0 else None
            case.judge(f"{way} at {at}", ran, left, may_fail=then > 0, may_be_killed=kill)
        found[way] = [(case.word(left), ran.status) for ran, left, _, _ in ends]
        print(f"{case.name:9} {way:19} {len(points):4}   {cell(found[way])}", file=sys.stderr, flush=True)
    return found


def main():
    trials, step, short = Trials(*sys.argv[1:3]), int(sys.argv[3]), sys.argv[4]
    with concurrent.futures.ThreadPoolExecutor(os.cpu_count()) as pool:
        found = {case.name: tried(case, pool, short, step) for case in cases(trials, sys.argv[5:])}
    print(f"""\
Each read and write takes 1, 2, 7 or 100 bytes at most, which changed nothing; and each in turn takes half of its bytes
alone, or half and then the next call fails, as where a disk fills up, or half and then the program is killed:
{trials.tried:,} runs, with the store opened again behind each.
""")
    table(found, list(HALF))
    trials.end()


main()
