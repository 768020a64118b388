#!/usr/bin/env python3
"""growths.py PROGRAM FOLDER REFUSER [RUN..]: refuses each growth of PROGRAM in turn, and looks what comes of it.

REFUSER is the library that bench/growths.sh makes. It counts the growths of a run, and refuses the one of a number, or
it and all behind it. Each run is made in a folder of its own below FOLDER, with each number from 1 on until a run ends
before it. What must hold:

- a single command ends as with ample memory, in status, out, err and files; or with 70, its line on err, nothing on
  out, and the files as they were; or, where the disk found no memory for a path, in a fault of the disk: 74, its line,
  nothing on out, and all of the commit or none of it in the files;
- a batch prints a fair text (bench/fair_judge.py) and ends with the status of that text, of which 70 is that a step
  wanted memory; or it prints nothing and ends with 70, or 74 before the first step, and has its line on err, and the
  files are those of a front of the history;
- no run is stopped by a signal or goes on for a minute, and the next run opens the store that it left.

RUNs are the first words of RUNS and BATCHES below. bench/growths.sh calls this.
"""
import collections
import itertools
import mmap
import os
import shutil
import struct
import subprocess
import sys

from fair import Ran, believe, files_in, prefixes, write_files
from fair_files import FORMER, JOURNAL, former_of, is_left_open, journal_of
from fair_judge import Unfair, held

MEMORY = b"kdb: C01110 out of memory\n"
DISK = b"kdb: C01100 disk-fault\n"
LONGEST = 60  # seconds that a run may take
NEVER = 2**62

# The commands that make the store which most runs begin with: each format, metadata, rules, trees to be merged.
STORE = [
    ["mount", "app.ini", "user:/sw/app", "simpleini"],
    ["mount", "hosts", "system:/hosts", "hosts"],
    ["mount", "web.json", "user:/web", "json"],
    ["set", "user:/sw/a", "1"],
    ["set", "user:/sw/b", "2"],
    ["set", "user:/sw/app/port", "80"],
    ["set", "user:/sw/app/host", "here"],
    ["set", "user:/web/version", "1.4"],
    ["set", "user:/web/files/#0", "dist"],
    ["set", "dir:/bad/count", "many"],
    ["set", "user:/base/k", "1"],
    ["set", "user:/our/k", "2"],
    ["set", "user:/their/k", "3"],
    ["meta-set", "user:/sw/a", "owner", "me"],
    ["meta-set", "spec:/sw/app/port", "type", "unsigned_short"],
    ["meta-set", "spec:/sw/app/port", "check/range", "1-1024,8080"],
    ["meta-set", "spec:/sw/app/host", "check/validation", "^[a-z]+$"],
    ["meta-set", "spec:/sw/_", "check/enum/#0", "1"],
    ["meta-set", "spec:/sw/_", "check/enum/#1", "2"],
    ["meta-set", "spec:/sw/late", "default", "30"],
    ["meta-set", "spec:/bad/count", "type", "short"],
]
HOSTS = b"# this machine\n127.0.0.1 localhost box\n::1 ip6-localhost\n"

Run = collections.namedtuple("Run", "words status store given", defaults=("some", b""))
RUNS = [
    Run("set user:/sw/a 1", 0, "none"),
    Run("get user:/sw/a", 0),
    Run("get /sw/late", 0),
    Run("get user:/sw/none", 11),
    Run("get user:/sw/a", 0, "open"),
    Run("set user:/sw/a 2", 0),
    Run("set user:/new/key text", 0),
    Run("set user:/sw/app/port 70000", 5),
    Run("set user:/sw/app/port 8080", 0, "open"),
    Run("rm user:/sw/b", 0),
    Run("rm -r user:/sw", 0),
    Run("ls /", 0),
    Run("cp user:/sw/a user:/sw/c", 0),
    Run("cp -r user:/sw/app user:/copy", 0),
    Run("mv user:/sw/app/host user:/host", 0),
    Run("mv -r user:/sw/app user:/web/app", 0),
    Run("meta-get user:/sw/a owner", 0),
    Run("meta-set user:/sw/a note text", 0),
    Run("meta-ls user:/sw/app/port", 0),
    Run("mount more.ecf user:/more", 0),
    Run("umount user:/sw/app", 0),
    Run("mounts", 0),
    Run("file user:/sw/app/port", 0),
    Run("export user:/web json", 0),
    Run("export user:/ dump", 0),
    Run("validate /", 13),
    Run("import system:/hosts hosts", 0, "some", HOSTS),
    Run("merge user:/our user:/their user:/base user:/end", 12),
    Run("merge user:/our user:/their user:/base user:/end -s our", 0),
    Run("frob", 4),
    Run("gen 3", 0),
]

# The scripts of batches, with `; ` for the end of a line, and what their sessions may have done one behind the other
# where they take their steps beside each other.
BEGUN = "session 1; get user:/; session 2; get user:/; phase; session 1; put user:/a 1; set user:/; phase; session 2; "
FIRST = "session 1; get user:/; put user:/a 1; merge user:/ our 9; "
SECOND = "session 2; get user:/; put user:/b 2; merge user:/ our 9; "
Batch = collections.namedtuple("Batch", "said store text orders", defaults=((),))
BATCHES = [
    Batch("conflict", "none", "session 1; get /; session 2; get /; session 3; get /; phase; "
          "session 1; put user:/sw 1; set /; phase; session 2; put user:/sw 2; set /; phase; "
          "session 3; put system:/sw 3; set /"),
    Batch("merged", "none", BEGUN + "put user:/b 2; merge user:/ abort 2"),
    Batch("spent", "none", BEGUN + "put user:/b 2; merge user:/ abort 1"),
    Batch("merge-conflict", "none", BEGUN + "put user:/a 2; merge user:/ abort 2"),
    Batch("steps", "some", "proc 1 /sw/late p; session 1; get /; look /sw/late; put user:/sw/b 1; "
          "meta user:/sw/a note \"two words\"; del user:/sw/app/host; cut user:/web; set /; phase; "
          "session 2; watch / 2; get user:/sw; set user:/sw; undo 1; poll; phase; session 1; merge / our 3; undo 9; "
          "set user:/none; phase; session 2; put user:/sw/app/port x; set user:/sw"),
    Batch("beside", "none", FIRST + SECOND + "session 3; watch user:/ 9; poll; phase; session 3; poll; undo 1",
          (FIRST + "phase; " + SECOND + "phase; session 3; undo 1",
           SECOND + "phase; " + FIRST + "phase; session 3; undo 1")),
]


def script_of_words(text):
    return "".join(f"{line}\n" for line in text.split("; ")).encode()


def open_gate(files):
    """Files with a journal in which an entry waits, with another text of one of them."""
    text = files["user.ecf"].replace(b"sw/a\n1\n", b"sw/a\n2\n")
    return {**files, JOURNAL: journal_of(["user.ecf"], {"user.ecf": text})}


def former_gate(files):
    """The same with the journal of a former program."""
    text = files["user.ecf"].replace(b"sw/a\n1\n", b"sw/a\n2\n")
    return {**files, FORMER: former_of({"user.ecf": text})}


class Refuser:
    """Runs the program with some of its growths refused."""

    def __init__(self, program, folder, library):
        self.program, self.folder = os.path.abspath(program), f"{folder}/run"
        self.note_path = f"{folder}/note"
        with open(self.note_path, "wb") as it:
            it.write(bytes(16))
        with open(self.note_path, "r+b") as it:
            self.note = mmap.mmap(it.fileno(), 16)
        plain = {name: it for name, it in os.environ.items() if name != "KDB_DIR"}
        self.plain, self.refusing = plain, {**plain, "LD_PRELOAD": os.path.abspath(library)}

    def begin(self, before):
        shutil.rmtree(self.folder, ignore_errors=True)
        os.mkdir(self.folder)
        if before:
            write_files(f"{self.folder}/.kdb", {**before, ".lock": b""})

    def run(self, words, given, before, first=NEVER, last=NEVER):
        """A run on these files in which the growths of these numbers are refused; how many there were, and how many of
        them were refused."""
        self.begin(before)
        self.note[:] = bytes(16)
        env = {**self.refusing, "REFUSE_NOTE": self.note_path, "REFUSE_FIRST": str(first), "REFUSE_LAST": str(last)}
        ran = subprocess.run([self.program, *words], cwd=self.folder, input=given, env=env, capture_output=True,
                             timeout=LONGEST, check=False)
        found = Ran(ran.stdout, ran.stderr, ran.returncode, 0, 0, files_in(f"{self.folder}/.kdb"))
        return found, *struct.unpack("qq", self.note[:])

    def opens(self):
        """Whether the next run opens the store."""
        return subprocess.run([self.program, "mounts"], cwd=self.folder, env=self.plain, capture_output=True,
                              check=False).returncode == 0

    def made(self, commands):
        """The files that some commands make."""
        self.begin({})
        for words in commands:
            given = HOSTS if words[0] == "import" else b""
            subprocess.run([self.program, *words], cwd=self.folder, env=self.plain, input=given, capture_output=True,
                           check=True)
        return files_in(f"{self.folder}/.kdb")


def single(ran, ample, before):
    """What came of a single command, in a word; what it must not be is unfair."""
    same = held(ran.after) == held(ample.after)
    if ran[:3] == ample[:3]:
        if not same:
            raise Unfair("files", "it ends as with ample memory, and its files don't")
        return "ample"
    if ran[:3] == (b"", MEMORY, 70):
        is_left = ran.after == before or is_left_open(before) and held(ran.after) == held(before)
        if not is_left:
            raise Unfair("files", "memory was wanting, and the files were changed")
        return "70"
    if ran[:3] == (b"", DISK, 74):
        if not same and held(ran.after) != held(before):
            raise Unfair("files", "a fault of the disk leaves files that are neither the old nor the new ones")
        return "74"
    raise Unfair("end", f"status {ran.status}, out {ran.out[:200]!r}, err {ran.err[:200]!r}")


def batch(script, ran, before, fronts):
    """The same for a batch. `fronts` are the files behind each front of the history of a run with ample memory."""
    if ran.out:
        try:
            believe(script, ran, before)
        except Unfair as why:
            # The files may be in the journal alone, where the disk found no memory behind the last commit.
            if why.rule != "files":
                raise
            believe(script, ran, before, True)
        if ran.status == 0 and DISK[5:-1] in ran.out:
            raise Unfair("status", "a fault of the disk is told, and the status is 0")
        return "ample" if ran.status == 0 else f"{ran.status}, told"
    if (ran.err, ran.status) not in ((MEMORY, 70), (DISK, 74)):
        raise Unfair("end", f"status {ran.status}, err {ran.err[:200]!r}")
    if any(it not in fronts for it in held(ran.after)) or not held(ran.after):
        raise Unfair("files", "they are those of no front of the history")
    return str(ran.status)


class Trying:
    """The trying of runs; what must not be goes to err."""

    def __init__(self, refuser):
        self.refuser, self.wrong, self.growths = refuser, 0, 0

    def ample(self, said, words, given, before, status):
        """A run in which nothing is refused, and how many growths it has."""
        ran, asked, _ = self.refuser.run(words, given, before)
        if ran.status != status or asked == 0:
            sys.exit(f"{said}: status {ran.status} and {asked} growths where nothing is refused: {ran.err}")
        return ran, asked

    def sweep(self, said, words, given, before, judge, asked):
        """Counts what came of the refusals, of one growth and of one with all behind it."""
        found = []
        for is_rest in False, True:
            counts = collections.Counter()
            for number in itertools.count(1):
                try:
                    ran, _, refused = self.refuser.run(words, given, before, number, NEVER if is_rest else number)
                    if not refused and number > asked:
                        break
                    if not refused:
                        continue
                    came = judge(ran)
                    if is_left_open(ran.after) and not self.refuser.opens():
                        raise Unfair("next", "the next run doesn't open the store")
                    counts[came] += 1
                except (Unfair, subprocess.TimeoutExpired) as why:
                    self.wrong += 1
                    print(f"MUST NOT BE: {said}, growth {number}{' and all behind' * is_rest}: {why}", file=sys.stderr)
            self.growths += counts.total()
            found.append(counts)
        print(f"{said}: {asked} growths, {dict(found[0])}, {dict(found[1])}", file=sys.stderr, flush=True)
        return found

    def row(self, said, asked, found, kinds):
        cells = [f"{it[kind]:,}" for it in found for kind in kinds]
        print(f"| {said} | {asked:,} | " + " | ".join(cells) + " |", flush=True)


def main():
    program, folder, library, *chosen = sys.argv[1:]
    refuser = Refuser(program, folder, library)
    trying = Trying(refuser)
    stores = {"none": {}, "some": refuser.made(STORE)}
    stores["open"] = open_gate(stores["some"])
    stores["former"] = former_gate(stores["some"])
    print("| command | growths | one refused: as with ample memory | 70 | 74 | all behind it, too | 70 | 74 |")
    print("|---|---|---|---|---|---|---|---|")
    for run in RUNS:
        words, before = run.words.split(" "), stores[run.store]
        if chosen and words[0] not in chosen:
            continue
        said = f"`{run.words}`" + {"none": ", the first", "some": "", "open": ", over an open gate"}[run.store]
        ample, asked = trying.ample(said, words, run.given, before, run.status)
        found = trying.sweep(said, words, run.given, before, lambda ran: single(ran, ample, before), asked)
        trying.row(said, asked, found, ("ample", "70", "74"))
    print("\n| batch | growths | one refused: 0 | 70 | 74 | without text: 70 | 74 |"
          " all behind it, too: 0 | 70 | 74 | without text: 70 | 74 |")
    print("|---" * 12 + "|")
    for it in BATCHES:
        if chosen and it.said not in chosen:
            continue
        script, before = script_of_words(it.text), stores[it.store]
        fronts = []
        for text in *it.orders, it.text:
            ample, asked = trying.ample(it.said, ["batch"], script_of_words(text), before, 0)
            believe(script_of_words(text), ample, before)
            fronts += prefixes(script_of_words(text), ample, before)
        found = trying.sweep(it.said, ["batch"], script, before, lambda ran: batch(script, ran, before, fronts), asked)
        trying.row(f"`{it.said}`", asked, found, ("ample", "70, told", "74, told", "70", "74"))
    print(f"\n{trying.growths:,} refusals in all.")
    if trying.wrong:
        sys.exit(f"{trying.wrong} times something didn't hold")
    print("all that must hold held", file=sys.stderr)


if __name__ == "__main__":
    main()
