#!/usr/bin/env python3
"""limits.py PROGRAM FOLDER [KIND..]: what runs at the limits take, beside the same runs at a quarter of them.

Each kind of store or script is made at a quarter and at the whole of its size, in a folder below FOLDER, and PROGRAM
runs there: three times, of which the least processor time and memory count. A row has both, and how many times those
of the quarter the whole takes. An input of n bytes may take n log n, and half as much again: where a run of the whole
takes more, and over a tenth of a second or 32 MiB, that is told on err, and 1 is the end. KINDs are the first words of
KINDS below. bench/limits.sh calls this.
"""
import collections
import math
import os
import resource
import shutil
import subprocess
import sys

MIB = 2**20
LONGEST = 600  # seconds of the processor that a run may take before it is stopped
ALLOWED = 1.5
SHORTEST, SMALLEST = 0.1, 32  # seconds and MiB that are too few to tell a growth by
MOUNTS, KEYS, LINES = 64, 2400, 100_000
DEFAULTS = ("spec", "dir", "user", "system")


# ---- stores

def write(path, text):
    with open(path, "w", encoding="utf-8") as it:
        it.write(text)


def record(name, value):
    return f"$key string {len(name)} {len(value)}\n{name}\n{value}\n"


def dump(records, size):
    """A dump of just this size: some records, and more with values that fill it up."""
    lines = ["kdbOpen 2\n", *records]
    left = size - sum(map(len, lines)) - len("$end\n")
    for at in range(100):
        # The last value has as many digits in its length as the one that is left out here.
        value = left - len(record("fill00", "v" * 10_000)) + 10_000
        value = value if value < 65_000 else min(65_000, value // 2)
        lines.append(record(f"fill{at:02}", "v" * value))
        left -= len(lines[-1])
        if not left:
            break
    return "".join([*lines, "$end\n"])


def spread(keys, size):
    """Lines of simpleini with so many keys, and blanks that make them just this size."""
    line = size // keys
    lengths = [size - line * (keys - 1), *[line] * (keys - 1)]
    return "".join(f"k{key:04} = v".ljust(length - 1) + "\n" for key, length in enumerate(lengths))


def store(folder, mounts, keys, size):
    """A store with so many mounts in all, each with a file of this size, and that many keys in each of one's own."""
    own = [f"m{number:02}" for number in range(mounts - len(DEFAULTS) - 1)]
    table = []
    for name in own:
        point = f"mountpoints/user:\\/{name}"
        table += [record(f"{point}/path", f"{name}.ini"), record(f"{point}/plugin", "simpleini")]
    os.makedirs(f"{folder}/.kdb")
    write(f"{folder}/.kdb/elektra.ecf", dump(table, size))
    for name in DEFAULTS:
        write(f"{folder}/.kdb/{name}.ecf", dump([], size))
    for name in own:
        write(f"{folder}/.kdb/{name}.ini", spread(keys, size))


def larger_files(folder, part):
    store(folder, MOUNTS, int(KEYS * part), int(MIB * part))


def more_mounts(folder, part):
    store(folder, int(MOUNTS * part), KEYS, MIB)


# ---- scripts

def script(folder, lines, size=0):
    """A script of these lines. The values of some, where they end with `=`, are made as long as makes it this size."""
    places = [at for at, line in enumerate(lines) if line.endswith("=")]
    left = size - sum(len(line) + 1 for line in lines)
    for turn, at in enumerate(places):
        more = left // (len(places) - turn)
        lines[at] += more * "v"
        left -= more
    os.makedirs(folder)
    write(f"{folder}/script", "".join(f"{it}\n" for it in lines))


def one_session(folder, part):
    """A get, values that are put to 1,000 keys in turn, and a set."""
    puts = [f"put user:/k{turn % 1000:03} =" for turn in range(int(LINES * part) - 3)]
    script(folder, ["session 1", "get user:/", *puts, "set user:/"], int(4 * MIB * part))


def dealt(folder, part, sessions, is_apart):
    """Gets, puts and sets of so many sessions, each at a mount of its own or all at one."""
    lines = []
    for session in range(1, sessions + 1):
        mount = f"user:/s{session if is_apart else 1:02}"
        lines.append(f"session {session}")
        for turn in range((int(LINES * part) - sessions) // (3 * sessions)):
            lines += [f"get {mount}", f"put {mount}/k{session:02} {turn}=", f"set {mount}"]
    script(folder, [*lines, *["#"] * (int(LINES * part) - len(lines))], int(4 * MIB * part))
    table = [record(f"mountpoints/user:\\/s{it:02}/path", f"s{it:02}.ecf") for it in range(1, 33)]
    os.makedirs(f"{folder}/.kdb")
    write(f"{folder}/.kdb/elektra.ecf", "".join(["kdbOpen 2\n", *table, "$end\n"]))


def with_all_keys(folder, part):
    """32 sessions that each get all keys of 64 mounts."""
    script(folder, [line for it in range(1, 33) for line in (f"session {it}", "get /")])
    store(folder, MOUNTS, int(KEYS * part), int(MIB * part))


def apart(folder, part):
    dealt(folder, part, 32, True)


def at_one(folder, part):
    dealt(folder, part, 32, False)


def more_sessions(folder, part):
    dealt(folder, part, int(32 * part), True)


def history(folder, part, keys, value):
    """A set of some keys, a set that takes them all away, and undos, each of the commit before it: so the history grows
    by the keys with each second one, and at the whole until its limit refuses more. A change weighs 16, its name and
    its value, and a commit 64 and its changes."""
    pair = 2 * 64 + keys * (2 * (16 + len("user:/k00000")) + len(value))
    undos = int(2 * part * 64 * MIB / pair) - 2 + (4 if part == 1 else 0)
    lines = ["session 1", "get user:/", *(f"put user:/k{it:05} {value}" for it in range(keys)), "set user:/"]
    script(folder, [*lines, "cut user:/", "set user:/", *(f"undo {it}" for it in range(2, undos + 2))])


def history_of_values(folder, part):
    history(folder, part, 16, 65_000 * "v")


def history_of_keys(folder, part):
    history(folder, part, 10_000, "v")


ON_MOUNTS = [["get", "user:/m00/k0000"], ["ls", "/"], ["validate", "/"], ["set", "user:/m00/k0000", "w"]]
ON_SCRIPT = [["batch"]]

# What is made, by what it is a quarter, its size at the whole, the runs, and what the text of a batch must tell then.
Kind = collections.namedtuple("Kind", "said make size runs wanted", defaults=(b"",))
KINDS = [
    Kind("mounts: 64 with a file of 1 MiB each; the files' size", larger_files, 64 * MIB, ON_MOUNTS),
    Kind("mounts: the same; how many there are", more_mounts, 64 * MIB, ON_MOUNTS),
    Kind("script: 4 MiB and 100,000 lines, of one session", one_session, 4 * MIB, ON_SCRIPT, b"\nhistory 1\n"),
    Kind("sessions: such a script of 32, at mounts of their own", apart, 4 * MIB, ON_SCRIPT),
    Kind("sessions: such a script of 32, all at one mount", at_one, 4 * MIB, ON_SCRIPT),
    Kind("sessions: the same at mounts of their own; how many there are", more_sessions, 4 * MIB, ON_SCRIPT),
    Kind("sessions: 32 that each get all keys of 64 mounts; the files' size", with_all_keys, 64 * MIB, ON_SCRIPT),
    Kind("history: 64 MiB, of 16 keys with 65,000 bytes each", history_of_values, 64 * MIB, ON_SCRIPT,
         b"refused C01100 history-full "),
    Kind("history: 64 MiB, of 10,000 keys", history_of_keys, 64 * MIB, ON_SCRIPT, b"refused C01100 history-full "),
]


# ---- measuring

def made(kind, folder, part):
    """Makes files in a process of its own: what that takes would count as memory of the runs that this one begins."""
    child = os.fork()
    if child == 0:
        status = 1
        try:
            kind.make(folder, part)
            status = 0
        finally:
            os._exit(status)
    if os.waitpid(child, 0)[1]:
        sys.exit(f"{kind.said}: its files could not be made")
    if os.path.isdir(f"{folder}/.kdb"):
        os.rename(f"{folder}/.kdb", f"{folder}/begun")


def once(program, words, folder):
    """The status of a run, its processor seconds and its MiB."""
    given = f"{folder}/script" if words == ["batch"] else os.devnull
    with open(given, "rb") as source, open(f"{folder}/out", "wb") as out:
        ran = subprocess.Popen(
            [program, *words], cwd=folder, stdin=source, stdout=out,
            preexec_fn=lambda: resource.setrlimit(resource.RLIMIT_CPU, (LONGEST, LONGEST)))
        _, status, use = os.wait4(ran.pid, 0)
        ran.returncode = os.waitstatus_to_exitcode(status)
    return ran.returncode, use.ru_utime + use.ru_stime, use.ru_maxrss / 1024


def is_told(path, wanted):
    """Whether the text of a batch is whole, and tells what it must. It is read line by line: see `made`."""
    is_there, line = not wanted.strip(), b""
    with open(path, "rb") as text:
        for line in text:
            is_there = is_there or wanted.strip() in line
    return is_there and line == b"end\n"


def least(program, kind, words, folder, part):
    """The least seconds and MiB of three runs on the same files."""
    taken = []
    for _ in range(3):
        shutil.rmtree(f"{folder}/.kdb", ignore_errors=True)
        if os.path.isdir(f"{folder}/begun"):
            shutil.copytree(f"{folder}/begun", f"{folder}/.kdb")
        status, *used = once(program, words, folder)
        if status or words == ["batch"] and not is_told(f"{folder}/out", kind.wanted if part == 1 else b""):
            sys.exit(f"{kind.said}: {words[0]} ends with {status}, or doesn't tell what it must")
        taken.append(used)
    return [min(it) for it in zip(*taken)]


def row(program, kind, folder):
    """Rows of a kind, one for each run; how many of them grow too fast."""
    fast = 0
    for part in 0.25, 1:
        made(kind, f"{folder}/{part}", part)
    bound = 4 * math.log(kind.size) / math.log(kind.size / 4) * ALLOWED
    for words in kind.runs:
        before, after = (least(program, kind, words, f"{folder}/{part}", part) for part in (0.25, 1))
        times = [now / max(was, 0.001) for was, now in zip(before, after)]
        cells = [f"{seconds:.2f}, {memory:.0f}" for seconds, memory in (before, after)]
        print(f"| {kind.said} | `{words[0]}` | {cells[0]} | {cells[1]} | {times[0]:.1f}, {times[1]:.1f} |", flush=True)
        if times[0] > bound and after[0] > SHORTEST or times[1] > bound and after[1] > SMALLEST:
            fast += 1
            print(f"MUST NOT BE: {kind.said}, {words[0]}: over {bound:.1f} times a quarter", file=sys.stderr)
    shutil.rmtree(folder)
    return fast


def main():
    program, folder, *chosen = sys.argv[1:]
    program, fast = os.path.abspath(program), 0
    print("| at the limit; by what a quarter is one | command | a quarter: s, MiB | the whole: s, MiB | times |")
    print("|---|---|---|---|---|")
    for at, kind in enumerate(KINDS):
        if not chosen or kind.said.split(":")[0] in chosen:
            fast += row(program, kind, f"{folder}/{at}")
    if fast:
        sys.exit(f"{fast} runs grow faster than their input")


if __name__ == "__main__":
    main()
