#!/usr/bin/env python3
"""gate.py [COMMAND..] · gate.py --join PAGE.. · gate.py --functions CRATE..: what the gate costs, for docs/DESIGN.md.

gate.py [COMMAND..] runs the gate (.ci/run, or COMMAND; `rt ci --anew` proves all from nothing) and writes what each
crate costs between the two lines that mark the table there.

Figures are processor minutes of the gate's own processes, which are sampled each second. What all of them spent between
two samples is exact: a process that ended has left its time with the one that waited for it. Of that each process has
what its own samples say, and what is left goes in equal parts to those that ended in between. So the sum is true to the
ticks of the system's clock, and a row to a second for each of its processes. How fast a processor is meanwhile, what a
loop of additions takes says, so that runs can be compared: a shared machine may take twice the minutes of a quiet one.

gate.py --join PAGE.. joins what runs wrote into copies of that page, each of which proved a part: a later page's figure
stands in the place of an earlier one's.

gate.py --functions CRATE.. proves each of these crates once more by one job, as many crates at a time as there are
processors, a crate of tests with its tests, and lists the functions that take over ten seconds between two further
lines there: the gate itself tells nothing of a function's time. What lies between two lines of such a check holds
what is loaded for the later one; so each that seems long is proved alone, and the crate's shortest one too: what it
takes more than that one is its own. The libraries below must stand in crates/*/out, where `rt ci` leaves them. It is
no part of the gate.

Where the marking lines are missing, what would stand between them goes to out.
"""
import collections
import concurrent.futures
import datetime
import os
import re
import subprocess
import sys
import textwrap
import threading
import time

TICKS = os.sysconf("SC_CLK_TCK")
TO = "docs/DESIGN.md"
COSTS = "bench/gate.py writes"
SLOW = "bench/gate.py --functions writes"
KINDS = ("proof", "tests", "edits", "runs")
OTHERS = "others, of less than a minute each"
# a twentieth of ten million additions, as at the top level of a program
ADDITIONS = compile("total = 0\nfor number in range(500_000):\n    total += number", "additions", "exec")
# the least time of a function that is listed, in seconds
LONG = 10

Process = collections.namedtuple("Process", "parent own reaped")


def text_of(path):
    with open(path, encoding="utf-8", errors="replace") as file:
        return file.read()


def processes():
    """All processes by numbers and beginnings: the parent, and the ticks of its own and of those it waited for."""
    found = {}
    for name in filter(str.isdigit, os.listdir("/proc")):
        try:
            words = text_of(f"/proc/{name}/stat").rpartition(")")[2].split()
        except OSError:
            continue
        own, reaped = int(words[11]) + int(words[12]), int(words[13]) + int(words[14])
        found[int(name), words[19]] = Process(int(words[1]), own, reaped)
    return found


def below(root):
    """The processes at and below one."""
    found, ours, more = processes(), {}, {root}
    while more:
        new = {key: it for key, it in found.items() if key not in ours and (key[0] in more or it.parent in more)}
        ours.update(new)
        more = {number for number, _ in new}
    return ours


def tree(root):
    """The processes at and below one, as they stand at one moment: none began or was waited for between two looks."""
    for _ in range(20):
        first, second = below(root), below(root)
        if {key: it.reaped for key, it in first.items()} == {key: it.reaped for key, it in second.items()}:
            break
    return second


def label(number):
    """The crate that a process works for, and at what: a proof, its tests, its wrong bodies, or a run."""
    try:
        words = text_of(f"/proc/{number}/cmdline").split("\0")
        folder = os.readlink(f"/proc/{number}/cwd")
    except OSError:
        return None
    if "--crate-name" in words:
        crate = words[words.index("--crate-name") + 1]
        if "--test" in words:
            return crate, "tests"
        if "--incremental" in words or "/rt-edit-" in folder:
            return crate, "edits"
        return crate, "runs" if "--crate-checked" in words else "proof"
    runs = (re.search(r"/rt-run-[^/]*/bin/(\w+?)(?:_tests)?$", it) for it in words)
    run = next((found for found in runs if found), None)
    if any("rattle-link" in it or "clang" in it for it in words):
        run = run or re.search(r"/crates/(\w+)$", folder)
    return (run[1], "runs") if run else None


class Meter:
    """What the processes below one have spent so far, by crate and kind, in ticks."""

    def __init__(self, root):
        self.root, self.before, self.labels, self.total = root, {}, {}, 0
        self.spent = collections.Counter()

    def name(self, key):
        if key not in self.labels:
            found = label(key[0])
            if found:
                self.labels[key] = found
        return self.labels.get(key, ("", "rt"))

    def share(self, ticks, ended):
        """Gives ticks in equal parts to the processes that ended, or to none where there are none."""
        for key in ended:
            self.spent[self.labels.get(key, ("", "rt"))] += ticks / len(ended)
        if not ended:
            self.spent["", "short"] += ticks

    def sample(self):
        now = tree(self.root)
        total = sum(it.own + it.reaped for it in now.values())
        if not now:
            return
        left = total - self.total
        for key, it in now.items():
            more = it.own - (self.before[key].own if key in self.before else 0)
            self.spent[self.name(key)] += more
            left -= more
        self.share(left, [it for it in self.before if it not in now])
        self.before, self.total = now, total

    def end(self, seconds):
        """The root was waited for: all that it and those below it spent is known, but of those that it left behind."""
        left = max(seconds * TICKS - self.total, 0)
        self.share(left, [it for it in self.before if it[0] != self.root] or [*self.before])


def pass_on(stream, lines):
    for line in stream:
        print(line, end="", flush=True)
        lines.append(line)


def speed():
    """The seconds of a processor that ten million additions would take now, by a twentieth of them."""
    begun = time.thread_time()
    exec(ADDITIONS, {})
    return (time.thread_time() - begun) * 20


def busy():
    """The ticks that all processes of the machine have spent."""
    words = text_of("/proc/stat").split("\n")[0].split()[1:]
    return sum(int(it) for at, it in enumerate(words[:8]) if at not in (3, 4))


def measured(command):
    """Runs a command, and returns its status, its lines, its meter and what the machine did meanwhile."""
    begun, ours, loads, speeds, lines = time.time(), busy(), [], [], []
    how = {"stdout": subprocess.PIPE, "stderr": subprocess.STDOUT, "text": True, "errors": "replace"}
    ran = subprocess.Popen(command, **how)
    reader = threading.Thread(target=pass_on, args=(ran.stdout, lines), daemon=True)
    reader.start()
    meter = Meter(ran.pid)
    while True:
        number, status, use = os.wait4(ran.pid, os.WNOHANG)
        if number:
            break
        meter.sample()
        loads.append(os.getloadavg()[0])
        if len(loads) % 20 == 1:
            speeds.append(speed())
        time.sleep(1)
    ran.returncode = os.waitstatus_to_exitcode(status)
    reader.join(5)
    seconds = use.ru_utime + use.ru_stime
    meter.end(seconds)
    machine = {
        "minutes": (time.time() - begun) / 60,
        "load": sum(loads) / max(len(loads), 1),
        "speed": sum(speeds) / max(len(speeds), 1),
        "others": max((busy() - ours) / TICKS - seconds, 0) / 60,
    }
    return ran.returncode, lines, meter, machine, seconds / 60


def edits_of(crate):
    folder = f"crates/{crate}/must-fail"
    return len([it for it in os.listdir(folder) if it.endswith(".edit")]) if os.path.isdir(folder) else 0


def shown(minutes):
    return f"{minutes:.1f}" if minutes >= 0.05 else ""


def row(name, cells, edits):
    proof, tests, tried, runs = (shown(it) for it in cells)
    return f"| {name} | {proof} | {tests} | {f'{edits}: {tried}' if tried else ''} | {runs} |"


def table(cells):
    """The rows of all crates, the dearest first, and the sums, from the minutes of each crate by kind."""
    dear = sorted((it for it in cells if sum(cells[it]) >= 1 and it != OTHERS), key=lambda it: -sum(cells[it]))
    rows = [row(f"`{it}`", cells[it], edits_of(it)) for it in dear]
    cheap = [it for it in cells if it not in dear]
    if cheap:
        others = [it for it in os.listdir("crates") if it not in dear]
        minutes = [sum(cells[it][at] for it in cheap) for at in range(4)]
        rows.append(row(f"{len(others)} {OTHERS}", minutes, sum(map(edits_of, others))))
    sums = [sum(it[at] for it in cells.values()) for at in range(4)]
    rows.append(row("all", sums, sum(map(edits_of, os.listdir("crates")))))
    return ["| crate | a proof | its tests | wrong bodies | runs |", "|---|---|---|---|---|", *rows], sums


def cells_of(spent):
    crates = sorted({crate for crate, kind in spent if crate})
    return {crate: [spent[crate, kind] / TICKS / 60 for kind in KINDS] for crate in crates}


def read_page(page):
    """What a run wrote into a page: its first lines, the minutes of each crate, and those of `rt` itself."""
    begin, end = marks(COSTS)
    said = text_of(page).split(begin)[1].split(end)[0].strip().split("\n")
    cells = {}
    for line in said:
        figures = r" \| ([\d.]*) \| ([\d.]*) \| (?:\d+: )?([\d.]*) \| ([\d.]*) \|$"
        found = re.match(r"\| (?:`(\w+)`|\d+ (others)[^|]*)" + figures, line)
        if found:
            cells[found[1] or OTHERS] = [float(it or 0) for it in found.groups()[2:]]
    own = re.search("`rt` itself ([\\d.]+)", " ".join(said))
    return said[: said.index("")], cells, float(own[1]) if own else 0


def joined(pages):
    """The lines of a table that several runs made."""
    heads, cells, own = [], {}, 0
    for page in pages:
        head, more, itself = read_page(page)
        heads += [*head, ""]
        own += itself
        for crate, minutes in more.items():
            known = cells.get(crate, [0] * 4)
            cells[crate] = [sum(it) if crate == OTHERS else it[1] or it[0] for it in zip(known, minutes)]
    # wrong bodies that have gone since cost nothing
    for crate in cells:
        if crate != OTHERS and not edits_of(crate):
            cells[crate][KINDS.index("edits")] = 0
    rows, sums = table(cells)
    heads += ["What each crate cost in the last of these runs that proved it or tried its wrong bodies:", ""]
    last = f"{told(sums)}, and `rt` itself in all of these runs {own:.1f}:"
    return [*heads, *rows, "", last, f"{sum(sums) + own:.1f} together."]


def told(sums):
    return ", ".join(f"{name} {it:.1f}" for name, it in zip(("Proofs", "tests", "wrong bodies", "runs"), sums))


def times(words, folder):
    """The ticks of each function that a check proves, in its order."""
    how = {"cwd": folder, "stdout": subprocess.PIPE, "stderr": subprocess.STDOUT, "text": True, "errors": "replace"}
    ran = subprocess.Popen([*words, "--progress"], **how)
    last, found = None, []
    for line in ran.stdout:
        done = re.match(r"checked (.*), \d+ of \d+$", line.strip())
        if done:
            now = next((it.own for key, it in processes().items() if key[0] == ran.pid), last or 0)
            if last is not None:
                found.append((now - last, done[1]))
            last = now
    if ran.wait():
        print(f"{folder}: the check ended with {ran.returncode}", file=sys.stderr)
    return found


def slow_functions(crates):
    """The lines of the functions that take long, of each of these crates."""
    said = subprocess.run(["rt", "doc"], capture_output=True, text=True, check=True).stdout
    # the words of a check are the toolchain's own
    sys.path.insert(0, f"{os.path.dirname(said.strip())}/bin")
    import rtlib

    made = [rtlib.Crate(os.path.abspath(f"crates/{name}"), os.getcwd(), {}) for name in crates]
    checks = {it.name: (it, it.words(["--jobs", "1"], tests=it.has_tests(), keeps=False)) for it in made}

    def took(name):
        crate, words = checks[name]
        found = times([rtlib.RATTLE, "check", *words], crate.folder)
        print(f"{name}: {sum(it[0] for it in found) / TICKS:.0f} s", file=sys.stderr, flush=True)
        return found

    def took_alone(asked):
        name, function = asked
        crate, words = checks[name]
        how = {"cwd": crate.folder, "stdout": subprocess.DEVNULL, "stderr": subprocess.DEVNULL}
        ran = subprocess.Popen([rtlib.RATTLE, "check", *words, "--only", function], **how)
        _, status, spent = os.wait4(ran.pid, 0)
        ran.returncode = os.waitstatus_to_exitcode(status)
        return spent.ru_utime + spent.ru_stime

    with concurrent.futures.ThreadPoolExecutor(len(os.sched_getaffinity(0))) as pool:
        found = dict(zip(checks, pool.map(took, checks)))
        seem = [(name, it) for name, ran in found.items() for ticks, it in ran if ticks >= LONG * TICKS]
        short = {name: min(found[name])[1] for name, _ in seem}
        asked = [*seem, *short.items()]
        alone = dict(zip(asked, pool.map(took_alone, asked)))
    own = {it: alone[it] - alone[it[0], short[it[0]]] for it in seem}
    slow = sorted((it for it in seem if own[it] >= LONG), key=own.get, reverse=True)
    head = f"Functions that take over {LONG} seconds of processor time, of {', '.join(f'`{it}`' for it in crates)}"
    tail = f" ({len(seem) - len(slow)} more seem so, by what is loaded for them)"
    lines = [f"- {own[it]:.0f} s: `{it[0]}`, `{it[1]}`" for it in slow]
    wrapped = textwrap.wrap(f"{head}{tail}{':' if slow else ': none.'}", 118, break_on_hyphens=False)
    return [*wrapped, "", *lines]


def marks(who):
    """The two lines between which a part of the page stands."""
    return f"<!-- begin of what {who} -->", f"<!-- end of what {who} -->"


def put(said, who):
    """Writes lines between the two that mark their part of the page."""
    (begin, end), text = marks(who), text_of(TO)
    if text.count(begin) == text.count(end) == 1:
        front, back = text.split(begin)[0], text.split(end)[1]
        with open(TO, "w", encoding="utf-8") as file:
            file.write("\n".join([front + begin, *said, end + back]))
    else:
        print("\n".join([begin, *said, end]))
        print(f"{TO} has no two lines that mark this: put these there", file=sys.stderr)


def run_gate(command):
    """Runs the gate, and writes what it cost."""
    status, lines, meter, machine, minutes = measured(command)
    spent = meter.spent
    rows, sums = table(cells_of(spent))
    kept = sum(" is kept: an earlier run " in it for it in lines)
    done = re.findall(
        r"every proof and must-fail edit was done in this run|done in this run: [^;]*", "".join(lines)
    ) or [f"{kept} crates are kept from earlier runs"]
    version = subprocess.run(["rt", "version"], capture_output=True, text=True, check=False).stdout.split("\n")[0]
    memory = int(re.search(r"MemTotal:\s+(\d+)", text_of("/proc/meminfo"))[1]) / 2**20
    own, short = (spent["", it] / TICKS / 60 for it in ("rt", "short"))
    said = [
        f"`{' '.join(command)}` took {minutes:.1f} processor minutes in {machine['minutes']:.1f} minutes on"
        f" {datetime.date.today()},",
        f"with `{version.strip()}`, on {len(os.sched_getaffinity(0))} processors and {memory:.0f} GiB of memory,",
        f"at a mean load of {machine['load']:.1f}; other programs took {machine['others']:.1f} processor minutes"
        " meanwhile.",
        f"Ten million additions of Python took {machine['speed']:.2f} seconds of a processor then.",
        f"{done[-1][0].upper()}{done[-1][1:]}.",
        *(["What was kept cost nothing here."] if kept else []),
        *([f"It ended with status {status}, so it is no whole gate."] if status else []),
        "",
        *rows,
        "",
        f"{told(sums)}, `rt` itself {own:.1f}, and {short:.1f} of processes that no sample saw:",
        f"{sum(spent.values()) / TICKS / 60:.1f} together.",
    ]
    put(said, COSTS)
    return status


def main():
    words = sys.argv[1:]
    pages = [os.path.abspath(it) for it in words[1:]] if words[:1] == ["--join"] else None
    os.chdir(f"{os.path.dirname(os.path.abspath(__file__))}/..")
    if pages is not None:
        put(joined(pages), COSTS)
    elif words[:1] == ["--functions"]:
        put(slow_functions(words[1:]), SLOW)
    else:
        return run_gate(words or [".ci/run"])
    return 0


sys.exit(main())
