#!/usr/bin/env python3
"""slow_files.py PROGRAM FOLDER [PART..]: legal files that once made commands slow, and what commands take on them.

Each kind of file is made at a quarter, at half and at the whole of its size, in a folder below FOLDER, and PROGRAM runs
three commands there: the last key is got, all keys are checked, and the last key is set. The last rows are of a hosts
file. A row has the seconds of the processor and the MiB of memory of each. With PARTs, as 0.1, other sizes are made.
bench/slow.sh calls this.
"""
import os
import resource
import subprocess
import sys

SIGNS = "abcdefghijklmnopqrstuvwxyzABCDEFGHIJKLMNOPQRSTUVWXYZ0123456789"
LONGEST = 60  # seconds that a command may take before it is stopped


def word(number):
    """Three letters and digits for each number."""
    return SIGNS[number // 3844 % 62] + SIGNS[number // 62 % 62] + SIGNS[number % 62]


def index(number):
    """A part for each item of an array."""
    return "#" + "_" * (len(str(number)) - 1) + str(number)


def dump(keys):
    """The bytes of a dump of some keys: a name, a value, and metadata."""
    records = ["kdbOpen 2\n"]
    for name, value, metas in keys:
        records.append(f"$key string {len(name)} {len(value)}\n{name}\n{value}\n")
        records.extend(f"$meta {len(meta)} {len(text)}\n{meta}\n{text}\n" for meta, text in metas)
    return "".join([*records, "$end\n"])


def plain(names, value=""):
    return [(name, value, ()) for name in names]


def globs(size):
    count = int(20000 * size)
    type_is = (("type", "string"),)
    return [(f"{word(i)}/_", "", type_is) for i in range(count)], plain(f"{word(i)}/k" for i in range(count))


def globs_in_front(size):
    count = int(20000 * size)
    type_is = (("type", "string"),)
    return [(f"_/{word(i)}", "", type_is) for i in range(count)], plain(f"a/{word(i)}" for i in range(count))


def exact(size):
    count = int(49900 * size)
    return plain(word(i) for i in range(count)), plain(word(i) for i in range(count))


def defaults(size):
    count = int(24000 * size)
    return [(word(i), "", (("default", "v"),)) for i in range(count)], plain(word(i) for i in range(count))


def metadata(size):
    texts = [(f"m{i:03}", "x" * 96) for i in range(int(600 * size))]
    return [("_", "", texts)], plain(word(i) for i in range(int(40000 * size)))


def metadata_over_own(size):
    texts = [(f"m{i:03}", "x" * 96) for i in range(int(600 * size))]
    return [("_", "", texts)], [(word(i), "", (("own", ""),)) for i in range(int(20000 * size))]


def pattern(size):
    checks = (("check/validation", r"^(\w{0,60}){4}$"),)
    return [("_", "", checks)], plain((word(i) for i in range(int(1000 * size))), "v")


def patterns_in_turn(size):
    specs = [(f"_/{part}", "", (("check/validation", rf"^(\w{{0,60}}){{4}}{part}?$"),)) for part in "ab"]
    return specs, plain((f"{word(i // 2)}/{'ab'[i % 2]}" for i in range(int(1000 * size))), "v")


def refused(size):
    checks = (("check/validation", r"(\w{0,100}){100}"),)
    return [("_", "", checks)], plain((word(i) for i in range(int(100 * size))), "v")


def enumerated(items, keys):
    checks = [(f"check/enum/{index(i)}", f"v{i}") for i in range(items)]
    return [("_", "", checks)], plain((word(i) for i in range(keys)), f"v{items - 1}")


def enumeration(size):
    return enumerated(int(10000 * size), int(1000 * size))


def enumeration_of_many(size):
    return enumerated(int(10000 * size), int(30000 * size))


def one_long_value(size):
    checks = (("check/validation", "((a?){100}){50}c"),)
    return [("_", "", checks)], [("k", "a" * int(65000 * size), ())]


KINDS = [
    ("20,000 globs that begin with a word beside 20,000 keys", globs),
    ("20,000 globs that end with a word beside 20,000 keys", globs_in_front),
    ("49,900 paths specified beside 49,900 keys", exact),
    ("24,000 defaults beside 24,000 keys", defaults),
    ("60,000 bytes of metadata for 40,000 keys", metadata),
    ("the same for 20,000 keys with metadata of their own", metadata_over_own),
    ("a large pattern for 1,000 keys", pattern),
    ("two large patterns that take turns, for 1,000 keys", patterns_in_turn),
    ("a pattern that is refused, for 100 keys", refused),
    ("an enumeration of 10,000 for 1,000 keys", enumeration),
    ("an enumeration of 10,000 for 30,000 keys", enumeration_of_many),
    ("one value of 65,000 bytes under a pattern of 5,000 holes", one_long_value),
]
COMMENTS = 520_000


def ran(program, words, folder):
    """The processor seconds and the MiB of one run, or why there are none."""
    made = subprocess.Popen(
        [program, *words], cwd=folder, stdin=subprocess.DEVNULL, stdout=subprocess.DEVNULL, stderr=subprocess.DEVNULL,
        preexec_fn=lambda: resource.setrlimit(resource.RLIMIT_CPU, (LONGEST, LONGEST)))
    _, status, use = os.wait4(made.pid, 0)
    made.returncode = os.waitstatus_to_exitcode(status)
    if made.returncode < 0:
        return f"over {LONGEST} s"
    return f"{use.ru_utime + use.ru_stime:.2f}, {use.ru_maxrss / 1024:.0f}"


def row(program, folder, said, kind, size):
    specs, keys = kind(size)
    os.makedirs(f"{folder}/.kdb")
    for name, text in ("spec", dump(specs)), ("user", dump(keys)):
        with open(f"{folder}/.kdb/{name}.ecf", "w", encoding="utf-8") as file:
            file.write(text)
    last = f"user:/{keys[-1][0]}"
    measure(program, folder, said, size, [["get", last], ["validate", "/"], ["set", last, "v0"]])


def hosts_row(program, folder, said, comments, size):
    """The same for a hosts file, whose one host has so many comments of a size before it."""
    os.makedirs(f"{folder}/.kdb")
    subprocess.run([program, "mount", "hosts", "user:/hosts", "hosts"], cwd=folder, check=True)
    with open(f"{folder}/.kdb/hosts", "w", encoding="utf-8") as file:
        file.write("#\n" * int(comments * size) + "127.0.0.1 here\n")
    name = "user:/hosts/ipv4/here"
    measure(program, folder, said, size, [["get", name], ["validate", "/"], ["set", name, "127.0.0.2"]])


def measure(program, folder, said, size, commands):
    print("|", " | ".join([said, f"{size:g}", *(ran(program, it, folder) for it in commands)]), "|", flush=True)


def main():
    program, folder = os.path.abspath(sys.argv[1]), sys.argv[2]
    sizes = [float(it) for it in sys.argv[3:]] or [0.25, 0.5, 1]
    print("| files | part | `get`: s, MiB | `validate` | `set` |\n|---|---|---|---|---|")
    for at, (said, kind) in enumerate(KINDS):
        for size in sizes:
            row(program, f"{folder}/{at}-{size:g}", said, kind, size)
    for size in sizes:
        hosts_row(program, f"{folder}/hosts-{size:g}", f"{COMMENTS:,} comments before one host", COMMENTS, size)


main()
