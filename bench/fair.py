#!/usr/bin/env python3
"""fair.py: whether what a batch printed is fair: a text that the definitions of a batch allow. It reads nothing but the
script, the files before and behind, and the text, and has no code in common with the tool's.

    bench/fair.py check SCRIPT TEXT STATUS BEFORE AFTER
        judges one run: files with the script and with what it put on out, its status, and the store's folder before
        the run and behind it
    bench/fair.py run COUNT [SEED]   makes so many scripts, runs the program on each, and judges it; prints a table
    bench/fair.py limits             one script of 32 sessions and 100,000 lines: time, memory, and whether it is fair
    bench/fair.py merges [COUNT]
        one script of 32 sessions that store so many merged sets each in one file at once: it is fair, each set is a
        commit, and behind the run the file has each session's keys
    bench/fair.py faults COUNT [SEED]
        makes so many scripts with one session in each phase, and runs each with a failing write, cut or sync of a
        file, and again with a kill there: the text is fair, and the files are those of the history or of a front of it
    bench/fair.py make SEED FOLDER   writes a script, FOLDER/script, and the files before it, FOLDER/.kdb
    bench/fair.py selftest           looks whether this checker can fail: fair texts are turned unfair in many ways, and
                                     stores that merge, watch or take back in a wrong way are played
    bench/fair.py batch              plays the script of its input on .kdb, as the program does: for trying the rest

The program is the one that KDB names, else build/kdb. The text's replies are judged each at the front that it tells:
the working set, the record, the verdict and what a merge tries next are worked out anew from the printed history, which
has to be made of just the commits that the replies tell. Nothing is said of `check/validation` but of plain patterns
(fair_keys.py: `pattern_rule`): other ones end the judging. Not part of the gate.
"""
import collections
import os
import random
import subprocess
import sys
import tempfile
import time

from fair_files import OWN, NotOpened, Store
from fair_formats import read_dump
from fair_judge import DISK_FAULT, Text, Trial, Unfair, held, judged, rendered, text_of
from fair_keys import shown
from fair_play import Play
from fair_scripts import MOST_LINES, MOST_SESSIONS, BadScript, Making, files_of, script_of
from fair_turns import selftest

TOP = os.path.dirname(os.path.dirname(os.path.abspath(__file__)))


# ---- runs of the program

def files_in(folder):
    """The files of a store's folder, but for its lock."""
    files = {}
    for name in os.listdir(folder) if os.path.isdir(folder) else []:
        if name != ".lock":
            with open(f"{folder}/{name}", "rb") as it:
                files[name] = it.read()
    return files


def write_files(folder, files):
    os.makedirs(folder, exist_ok=True)
    for name, data in files.items():
        with open(f"{folder}/{name}", "wb") as it:
            it.write(data)


def program():
    path = os.path.abspath(os.environ.get("KDB", f"{TOP}/build/kdb"))
    if not os.access(path, os.X_OK):
        sys.exit("run ./first-use.sh first, or name the program by KDB")
    return path


Ran = collections.namedtuple("Ran", "out err status seconds peak after")


def played(kdb, script, before, *traced):
    """Runs the program on a script in a folder of its own, traced by some words in front of it."""
    with tempfile.TemporaryDirectory() as folder:
        if before:
            write_files(f"{folder}/.kdb", before)
        with open(f"{folder}/script", "wb") as it:
            it.write(script)
        out, err = tempfile.TemporaryFile(), tempfile.TemporaryFile()
        with open(f"{folder}/script", "rb") as given, out, err:
            begun = time.perf_counter()
            ran = subprocess.Popen([*traced, kdb, "batch"], cwd=folder, stdin=given, stdout=out, stderr=err)
            _, status, use = os.wait4(ran.pid, 0)
            seconds = time.perf_counter() - begun
            ran.returncode = os.waitstatus_to_exitcode(status)
            told = [it.seek(0) or it.read() for it in (out, err)]
        return Ran(*told, ran.returncode, seconds, use.ru_maxrss, files_in(f"{folder}/.kdb"))


def believe(script, ran, before, has_failed=False):
    """Judges a run; err has nothing where a batch is played."""
    counts = judged(script, ran.out, ran.status, before, ran.after, has_failed)
    if ran.out and ran.err:
        raise Unfair("err", f"it has {ran.err!r}")
    return counts


KINDS = ("got", "commit", "conflict", "same", "refused", "found", "none", "tried", "merge-conflict", "spent", "watch",
         "news", "~")


def run(count, first):
    kdb, whole = program(), collections.Counter()
    print("| scripts | sessions | steps | " + " | ".join(KINDS) + " | seconds |")
    print("|---" * (len(KINDS) + 4) + "|")
    for seed in range(first, first + count):
        making = Making(seed, most=random.Random(f"size {seed}").choice([20, 100, 500, 2000]))
        script, before = making.script(), files_of(seed)
        ran = played(kdb, script, before)
        try:
            counts = believe(script, ran, before)
        except Unfair as why:
            keep = tempfile.mkdtemp(prefix=f"unfair-{seed}-")
            write_files(keep, {"script": script, "out": ran.out, "err": ran.err})
            write_files(f"{keep}/before", before)
            write_files(f"{keep}/after", ran.after)
            sys.exit(f"script {seed} is not fair: {why}; it stands in {keep}")
        read = script_of(script)
        whole.update(counts)
        whole.update(scripts=1, sessions=len(read.sessions), steps=steps_in(read), milliseconds=int(ran.seconds * 1000))
    row = [whole[it] for it in ("scripts", "sessions", "steps", *KINDS)]
    print("| " + " | ".join(f"{it:,}" for it in row) + f" | {whole['milliseconds'] / 1000:.1f} |")
    print("all fair")


def steps_in(script):
    return sum(len(steps) for phase in script.phases for steps in phase.values())


CALLS = ("pwrite64", "ftruncate", "fsync")
STRACE = ("strace", "-f", "-qq", "-o")
LINE = b"kdb: C01100 disk-fault\n"


def calls_of(kdb, script, before):
    """The run of a script, and how often it makes each of the calls that change a file."""
    with tempfile.NamedTemporaryFile() as trace:
        ran = played(kdb, script, before, *STRACE, trace.name, "-e", f"trace={','.join(CALLS)}")
        lines = trace.read().decode()
    return ran, [(call, lines.count(f" {call}(")) for call in CALLS if f" {call}(" in lines]


def prefixes(script, ran, before):
    """What the files hold behind each front of the history that a run has printed."""
    read, store = script_of(script), Store(before)
    trial = Trial(read, store, text_of(ran.out, read, store))
    trial.all()
    return [trial.files(front=front) for front in range(len(trial.history) + 1)]


def fault(kdb, script, before, call, number, fronts):
    """A run in which a call fails, and one that is killed there."""
    where = f"inject={call}:%s:when={number}"
    traced = [*STRACE, "/dev/null", "-e", f"trace={call}", "-e"]
    ran = played(kdb, script, before, *traced, where % "error=EIO")
    if ran.out or ran.err != LINE or ran.status != 74 or any(it != fronts[0] for it in held(ran.after)):
        believe(script, ran, before, True)
    killed = played(kdb, script, before, *traced, where % "signal=KILL")
    found = held(killed.after)
    if killed.out or not found or any(it not in fronts for it in found):
        raise Unfair("kill", f"behind a kill at {call} {number} the files are those of no front of the history")
    return DISK_FAULT in ran.out.decode()


def faults(count, first):
    kdb, tried, told = program(), 0, 0
    for seed in range(first, first + count):
        chance = random.Random(f"faults {seed}")
        script, before = Making(seed, most=60).script(is_alone=True), files_of(seed)
        ran, calls = calls_of(kdb, script, before)
        believe(script, ran, before)
        fronts = prefixes(script, ran, before)
        for _ in range(6 if calls else 0):
            call, most = chance.choice(calls)
            number = chance.randint(1, most)
            try:
                told += fault(kdb, script, before, call, number, fronts)
            except Unfair as why:
                sys.exit(f"script {seed} with a fault at {call} {number} is not fair: {why}")
            tried += 1
    print(f"{count} scripts, {tried} calls that failed, {told} of them told by a reply, and as many kills: all fair")


def limits():
    making = Making(0, most=97_000)
    lines = making.script(MOST_SESSIONS, 8).split(b"\n")[:-1]
    script = b"\n".join((lines + [b"#"] * MOST_LINES)[:MOST_LINES]) + b"\n"
    before = files_of(7)
    ran = played(program(), script, before)
    begun = time.perf_counter()
    counts = believe(script, ran, before)
    steps = steps_in(script_of(script))
    print(f"{len(script):,} bytes in {MOST_LINES:,} lines of {MOST_SESSIONS} sessions, {steps:,} steps")
    print(f"{counts['commits']:,} commits, {counts['conflict']:,} conflicts, {len(ran.out):,} bytes of text")
    print(f"{ran.seconds:.1f} seconds, {ran.peak / 1024:,.0f} MiB at the most")
    print(f"fair; that was judged in {time.perf_counter() - begun:.1f} seconds")


def merged_script(sets):
    """So many merged sets of each of 32 sessions in one file, and the keys that it is to have in the end."""
    lines, keys = [], {}
    for session in range(1, MOST_SESSIONS + 1):
        lines += [f"session {session}", "get user:/"]
        for turn in range(sets):
            path = f"/s{session}/k{turn % 10}"
            lines += [f"put user:{path} {turn}", f"merge user:/ our {MOST_SESSIONS * sets}"]
            keys[path] = str(turn)
    return "".join(f"{line}\n" for line in lines).encode(), keys


def merges(sets):
    script, keys = merged_script(sets)
    ran = played(program(), script, {})
    counts = believe(script, ran, {})
    found = {shown(name): value for name, (value, _) in read_dump(ran.after.get("user.ecf", b"")).items()}
    commits = MOST_SESSIONS * sets
    if (counts["commit"], counts["commits"]) != (commits, commits):
        sys.exit(f"{counts['commit']:,} of {commits:,} merged sets were told as commits, {counts['commits']:,} made")
    if found != keys:
        sys.exit(f"the file has not the keys of each session: {found}")
    print(f"{MOST_SESSIONS} sessions stored {commits:,} merged sets in one file in {ran.seconds:.1f} seconds, with "
          f"{counts['tried']:,} tries that met another's commit: fair, none lost, and each session's keys are there")


def batch():
    """Plays the script of the input on .kdb."""
    data, before = sys.stdin.buffer.read(), files_in(".kdb")
    try:
        script = script_of(data)
        store = Store(before)
    except BadScript as why:
        text = "C01100 script-too-long" if why.args[0] == "too long" else f"C03100 bad-line {why}"
        print(f"kdb: {text}", file=sys.stderr)
        sys.exit(5)
    except NotOpened as why:
        print(f"kdb: {why}", file=sys.stderr)
        sys.exit(5)
    play = Play(script, store, random.Random(0))
    sys.stdout.write(rendered(script, play.text(), store.points))
    trial = Trial(script, store, Text([], play.history.commits))
    trial.replay()
    write_files(".kdb", {**dict.fromkeys(store.files, b""), **trial.files()})
    write_files(".kdb", {name: b"\0" + before[name][1:] for name in OWN & before.keys() if before[name]})


def main():
    words = sys.argv[1:]
    if words[:1] == ["check"] and len(words) == 6:
        with open(words[1], "rb") as script, open(words[2], "rb") as text:
            try:
                counts = judged(script.read(), text.read(), int(words[3]), files_in(words[4]), files_in(words[5]))
            except Unfair as why:
                sys.exit(f"not fair: {why}")
        print("fair: " + ", ".join(f"{count} {kind}" for kind, count in sorted(counts.items())))
    elif words[:1] == ["run"] and len(words) in (2, 3):
        run(int(words[1]), int(words[2]) if len(words) == 3 else 1)
    elif words[:1] == ["faults"] and len(words) in (2, 3):
        faults(int(words[1]), int(words[2]) if len(words) == 3 else 1)
    elif words == ["limits"]:
        limits()
    elif words[:1] == ["merges"] and len(words) in (1, 2):
        merges(int(words[1]) if len(words) == 2 else 25)
    elif words[:1] == ["make"] and len(words) == 3:
        write_files(words[2], {"script": Making(int(words[1])).script()})
        write_files(f"{words[2]}/.kdb", files_of(int(words[1])))
    elif words == ["selftest"]:
        selftest()
    elif words == ["batch"]:
        batch()
    else:
        sys.exit(__doc__)


if __name__ == "__main__":
    main()
