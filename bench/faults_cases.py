"""The commands that bench/faults.sh tries, the stores that they begin with, and what must hold of a run of one."""
import re
import sys

from fair_files import former_of, journal_of
from faults_runs import files_in, put_files, run

DISK_FAULT = b"kdb: C01100 disk-fault\n"
READ_FAULT = b"kdb: C01100 read-fault\n"
WRITE_FAULT = b"kdb: C01100 write-fault\n"

BEGIN = ["mount app.ecf user:/sw/app", "set user:/sw/a 1", "set user:/sw/app/host here"]
COPIES = [f"set user:/{side}/{name} 1" for side in ("our", "their", "base") for name in ("a", "app/host")]
MERGE = [*BEGIN, *COPIES, "set user:/our/a 2", "set user:/their/app/host there"]
VALIDATE = [*BEGIN, "set user:/sw/b many", "meta-set spec:/sw/_ type short", "meta-set spec:/sw/app/_ type short"]
IMPORTED = b"a = another value\napp/host = there\n"


def script(sets):
    """A batch of so many sets, each of which changes two files."""
    edits = 'put user:/sw/a "value number {0}"\nput user:/sw/app/host "number {0}"\nset user:/\n'
    return "".join(["session 1\nget user:/\n", *(edits.format(number + 1) for number in range(sets))]).encode()



def dump(name, value):
    """A file with one key."""
    return f"kdbOpen 2\n$key string {len(name)} {len(value)}\n{name}\n{value}\n$end\n".encode()


# the entries of an open journal, or of a former one: the second one writes over a part of the first
ENTRIES = [{"app.ecf": dump("host", "there"), "user.ecf": dump("sw/a", "one")}, {"user.ecf": dump("sw/a", "another")}]

# what a run that was killed left open: this program's journal, or that of a former one
OPEN_JOURNALS = {
    "opened": {"journal2": journal_of(["app.ecf", "user.ecf"], *ENTRIES)},
    "former": {"journal": former_of(*ENTRIES)},
}

# for each name the words of a command, its input, and the commands that make the store which it begins with
COMMANDS = {
    "get": ("get user:/sw/a", b"", BEGIN),
    "validate": ("validate user:/sw", b"", VALIDATE),
    "set": ("set user:/sw/a longer-than-before", b"", BEGIN),
    "rm": ("rm user:/sw/a", b"", BEGIN),
    "mv": ("mv user:/sw/a user:/sw/app/b", b"", BEGIN),
    "mount": ("mount other.ecf user:/sw/other", b"", BEGIN),
    "merge": ("merge user:/our user:/their user:/base user:/sw", b"", MERGE),
    "import": ("import user:/sw simpleini", IMPORTED, BEGIN),
    "first": ("set user:/sw/a 1", b"", []),
    "opened": ("get user:/sw/a", b"", BEGIN),
    "former": ("get user:/sw/a", b"", BEGIN),
    "batch": ("batch", script(3), BEGIN),
    "gen": ("gen 3", b"", BEGIN),
}

class Case:
    """A command on the store that it begins with, and what it comes to where nothing fails.

    ends are the files that a run may leave, in their order: those before it, and those behind each of its commits.
    """

    def __init__(self, trials, name):
        words, given, made_by = COMMANDS[name]
        self.trials, self.name, self.words = trials, name, words.split()
        self.given = trials.file(given)
        self.reads_input = bool(given)
        with trials.folder() as folder:
            for line in made_by:
                if run([trials.kdb, *line.split()], folder).status:
                    sys.exit(f"kdb {line} fails before any call does")
            self.begin = files_in(folder)
        self.ends = [self.begin]
        if name in OPEN_JOURNALS:
            # What is in an open journal was stored: the former files are no end of this run.
            self.ends = [{**self.begin, **ENTRIES[0], **ENTRIES[1]}]
            self.begin = {**self.begin, **OPEN_JOURNALS[name]}
        elif name == "batch":
            self.ends += [self.end_of(trials.file(script(sets)))[1] for sets in (1, 2)]
        self.wanted, last = self.end_of(self.given)
        stores = name not in ("get", "validate", "gen", *OPEN_JOURNALS)
        if self.wanted.status != (13 if name == "validate" else 0) or (last == self.ends[-1]) == stores:
            trials.complain(name, "ends with", self.wanted, "where nothing fails, and leaves", last)
        if stores:
            self.ends.append(last)

    def end_of(self, given):
        with self.trials.folder() as folder:
            put_files(folder, self.begin)
            ran = run([self.trials.kdb, *self.words], folder, given)
            return ran, files_in(folder)

    def left(self, folder):
        """Which of the ends the files of a folder are; else `mixed`, where each file is that of some end, or `torn`."""
        now = files_in(folder)
        if now in self.ends:
            return self.ends.index(now)
        known = all(any(now.get(name, b"") == end.get(name, b"") for end in self.ends)
                    for name in {*now, *(name for end in self.ends for name in end)})
        return "mixed" if known else "torn"

    def word(self, left):
        """What a table says of it."""
        if left in ("mixed", "torn") or len(self.ends) == 1:
            return left if left in ("mixed", "torn") else "same"
        return "old" if left == 0 else "new" if left == len(self.ends) - 1 else "amid"

    def is_as_wanted(self, ran, left):
        return ran == self.wanted and left == len(self.ends) - 1

    def told(self, ran, left):
        """What must not be of a run in which a call failed, which isn't as one without: it has to tell the failure."""
        if ran.status != 74:
            yield f"status {ran.status}"
        if ran.err == WRITE_FAULT:
            # Out failed, so all was stored before.
            if not self.wanted.out.startswith(ran.out):
                yield "out has no beginning of what it is to have"
            if left != len(self.ends) - 1:
                yield "out failed, and not all was stored"
        elif self.name == "batch" and ran.out:
            if ran.err or not re.search(rb"^refused C01100 disk-fault front \d+$", ran.out, re.M):
                yield "a batch tells no fault"
            if left < last_told(ran.out):
                yield f"{last_told(ran.out)} sets are told as stored"
        else:
            if ran.out:
                yield "out has something"
            if ran.err != DISK_FAULT and not (ran.err == READ_FAULT and self.reads_input):
                yield "err has another line"
            if ran.err == READ_FAULT and left:
                yield "the input failed, and something was stored"

    def killed(self, ran, left):
        """What must not be of a run that was killed."""
        if not self.wanted.out.startswith(ran.out) or ran.err:
            yield "out has no beginning of what it is to have, or err has something"
        if self.name == "batch" and left < last_told(ran.out):
            yield f"{last_told(ran.out)} sets are told as stored"

    def wrongs(self, ran, left, may_fail=True, may_be_killed=None):
        """All that must not be. A run goes as if nothing had failed, or tells it, or was killed by that signal."""
        if left in ("mixed", "torn"):
            yield f"files are {left}"
        elif may_be_killed and ran.status == -may_be_killed:
            yield from self.killed(ran, left)
        elif may_fail and ran != self.wanted:
            yield from self.told(ran, left)
        elif not self.is_as_wanted(ran, left):
            yield "it isn't as a run without failing calls"

    def judge(self, at, ran, left, **how):
        self.trials.count()
        for wrong in self.wrongs(ran, left, **how):
            self.trials.complain(f"{self.name}, {at}: {wrong};", self.word(left), ran)


def last_told(out):
    """How many sets of a batch there were up to the last one that it told as stored."""
    sets = re.findall(rb"^(?:commit|refused) .*$", out.split(b"\nhistory ")[0], re.M)
    return max((at for at, line in enumerate(sets, 1) if line.startswith(b"commit")), default=0)


def cases(trials, names):
    """The cases of these names, or of all."""
    return [Case(trials, name) for name in names or COMMANDS]
