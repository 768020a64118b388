#!/usr/bin/env python3
"""put.py SCRIPT [WORD..]: runs bench/SCRIPT.sh, and writes what it prints into docs/TIMES.md.

It stands there between two lines that mark the script's section, behind a line that says when it was measured and on
what: the kit, the machine, the disk of the temporary folder and the load before and behind. Each script that measures
calls this by itself, so `bench/get.sh` is all that one types. What a script puts on err is its progress, and stays out
of the page.

With words a script tries something smaller: it prints, and nothing is written. Neither is anything where it fails.
"""
import datetime
import os
import re
import subprocess
import sys
import tempfile

TOP = os.path.dirname(os.path.dirname(os.path.abspath(__file__)))
PAGE = f"{TOP}/docs/TIMES.md"


def text_of(path):
    with open(path, encoding="utf-8", errors="replace") as file:
        return file.read()


def disk():
    """The kind of file system that the temporary folder stands on."""
    folder, found = os.path.realpath(tempfile.gettempdir()), ("", "unknown")
    for line in text_of("/proc/self/mountinfo").split("\n"):
        words = line.split(" ")
        if "-" not in words:
            continue
        point, kind = words[4], words[words.index("-") + 1]
        if (folder == point or folder.startswith(point.rstrip("/") + "/")) and len(point) >= len(found[0]):
            found = point, kind
    return found[1]


def machine():
    """What the page says of the machine: processors, memory and disk."""
    name = re.search(r"model name\s*: (.*)", text_of("/proc/cpuinfo"))
    memory = int(re.search(r"MemTotal:\s+(\d+)", text_of("/proc/meminfo"))[1]) / 2**20
    cores = len(os.sched_getaffinity(0))
    return f"{cores} processors ({name[1] if name else 'unknown'}), {memory:.0f} GiB of memory, {disk()}"


def kit():
    try:
        ran = subprocess.run(["rt", "version"], capture_output=True, text=True, check=False)
        return ran.stdout.split("\n")[0].strip()
    except OSError:
        return "an unknown kit"


def wrapped(text):
    """Lines of at most 120 characters."""
    lines, line = [], ""
    for word in text.split():
        if line and len(line) + 1 + len(word) > 118:
            lines, line = [*lines, line], ""
        line = f"{line} {word}".strip()
    return [*lines, line]


def load():
    return f"{os.getloadavg()[0]:.1f}"


def put(section, said):
    """Writes lines into the section of the page."""
    begin, end = (f"<!-- {it} of what bench/{section}.sh writes -->" for it in ("begin", "end"))
    text = text_of(PAGE)
    if text.count(begin) != 1 or text.count(end) != 1:
        sys.exit(f"{PAGE} has no section for bench/{section}.sh: put the two lines there\n{begin}\n{end}")
    front, back = text.split(begin)[0], text.split(end)[1]
    with open(PAGE, "w", encoding="utf-8") as file:
        file.write("\n".join([front + begin, *said, end + back]))


def main():
    section, words = sys.argv[1], sys.argv[2:]
    before, lines = load(), []
    ran = subprocess.Popen(["bash", f"{TOP}/bench/{section}.sh", *words], env={**os.environ, "IS_PUT": "1"},
                           stdout=subprocess.PIPE, text=True)
    for line in ran.stdout:
        print(line, end="", flush=True)
        lines.append(line.rstrip("\n"))
    status = ran.wait()
    if status:
        sys.exit(status)
    if not words:
        when = f"Measured on {datetime.date.today()} with `{kit()}`, on {machine()},"
        loads = f"with a load of {before} before and {load()} behind."
        put(section, [*wrapped(f"{when} {loads}"), "", *lines])


main()
