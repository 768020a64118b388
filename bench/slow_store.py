#!/usr/bin/env python3
"""A slow store, which has no code in common with the tool's.

It keeps the history alone, as whose each commit is, the mounts that it touches and its changes, and works out anew
from it at each event what a handle has seen, what is wanted, what blocks, and which key would break the range that a
key of `spec:` gives it. Which mount owns a name, which mounts a parent involves and which of them count conflicts by
key are tables here, and the text of a file is put together by hand.

    bench/slow_store.py lists      writes the lists of events that a fixed rule makes up: lists.txt and key_lists.txt in
                                   store_cases/data
    bench/slow_store.py answers    prints these lists with what is wanted of each, as far as no call of the disk fails
    bench/slow_store.py check [PRINTED]
        looks, line by line, at what the program printed of the lists (store_cases/stdout without a name)
    bench/slow_store.py selftest   looks whether the lists can tell a wrong store: each of some has to answer one of them
                                   otherwise

Where calls of the disk fail, the slow store believes a printed failure of the disk where the set is a commit; what the
files hold behind a crash is then the outcome of the history, or of it with one set more that failed since the last
commit. So `stdout` is made anew by `lists`, a run of the program in store_cases/data, and `check` on what it printed.
Not part of the gate.
"""
import collections
import copy
import os
import sys

ROOT = os.path.dirname(os.path.dirname(os.path.abspath(__file__)))
DATA = f"{ROOT}/crates/store_cases/data"
WANTED = f"{ROOT}/crates/store_cases/stdout"
EVENTS, MORE_EVENTS = 20, 30

# the mounts in their order: mountpoint and file
MOUNTS = [
    ("spec:/", "spec.ecf"),
    ("dir:/", "dir.ecf"),
    ("user:/", "user.ecf"),
    ("user:/sw", "sw.ecf"),
    ("system:/", "system.ecf"),
    ("system:/elektra", "elektra.ecf"),
]
# some names in their order, each with the mount that owns it and how its file names it; the first one specifies the
# path /a, by a range. Behind these come the names of the mount table, which say that user:/sw is a mount, and which
# mounts count conflicts by key
NAMES = [
    ("spec:/a", 0, "a"),
    ("user:/a", 2, "a"),
    ("user:/b", 2, "b"),
    ("user:/sw", 3, ""),
    ("user:/sw/a", 3, "a"),
    ("user:/sw/b", 3, "b"),
    ("system:/a", 4, "a"),
    ("system:/b", 4, "b"),
]
TABLE = 5
SPECIFICATION, RANGE, IN_RANGE = 0, ("check/range", "1-1"), "1"
SPECIFIED = (1, 6)
# some parents, each with the mounts that it involves
PARENTS = [
    ("/", (0, 1, 2, 3, 4, 5)),
    ("user:/", (2, 3)),
    ("user:/a", (2,)),
    ("user:/sw", (3,)),
    ("user:/sw/x", (3,)),
    ("system:/", (4, 5)),
    ("system:/a", (4,)),
    ("/sw", (0, 1, 3, 4)),
]
# a record that user.ecf keeps for later, since another mount owns its name; what that file holds at first, and the
# values of the names then
KEPT = "$key string 4 1\nsw/x\nh\n"
FIRST_TEXT = "kdbOpen 2\n$key string 1 1\na\n1\n" + KEPT + "$end\n"
FIRST_VALUES = (None, "1", None, None, None, None, None, None)


def part_of(point):
    """How the table's file spells an entry."""
    return "mountpoints/" + point.replace("/", "\\/")


class Files:
    """What the lists of one kind begin with: the mounts that count by key, the names with those of their table, the
    values of all at first, and what the files hold then."""

    def __init__(self, *by_key):
        self.by_key = {m for m, (point, _) in enumerate(MOUNTS) if point in by_key}
        self.keys, self.values, self.entries = list(NAMES), list(FIRST_VALUES), {}
        for point, file in sorted(MOUNTS):
            said = {"conflicts": "keys", "path": file} if point in by_key else {"path": file} if point == "user:/sw" else {}
            for word, value in said.items():
                name = f"{part_of(point)}/{word}"
                self.entries.setdefault(point, {})[word] = len(self.keys)
                self.keys.append((f"system:/elektra/{name}", TABLE, name))
                self.values.append(value)
        self.texts = {2: FIRST_TEXT, TABLE: self.dump_of(self.values, TABLE)}

    def dump_of(self, values, mount):
        """The dump of the keys that a mount owns, and of the record that is kept for later."""
        text = "kdbOpen 2\n"
        for key, (_, owner, name) in enumerate(self.keys):
            if owner == mount and values[key] is not None:
                text += f"$key string {len(name)} {len(values[key])}\n{name}\n{values[key]}\n"
                if key == SPECIFICATION:
                    text += f"$meta {len(RANGE[0])} {len(RANGE[1])}\n{RANGE[0]}\n{RANGE[1]}\n"
        return text + (KEPT if mount == 2 else "") + "$end\n"

    def is_table(self, values):
        """Whether the keys of the table are one: each entry has a file of its own, and a way to count."""
        said = {point: {word: values[key] for word, key in words.items()} for point, words in self.entries.items()}
        said = {point: words for point, words in said.items() if set(words.values()) != {None}}
        files = [file for point, file in MOUNTS if point not in (*said, "user:/sw")]
        files += [words["path"] for words in said.values()]
        counts = [words.get("conflicts") for words in said.values()]
        return None not in files and len(set(files)) == len(files) and {*counts} <= {None, "backend", "keys"}

    def others(self, key):
        """What a key may become."""
        return ("1", "2", "sw.ecf") if not self.keys[key][0].endswith("/conflicts") else ("backend", "keys", "key")


# the files of lists: of each kind, by which mounts count by key, the numbers of its lists
KINDS = [
    ("lists.txt", [(Files(), range(200))]),
    ("key_lists.txt", [(Files("user:/sw"), range(26)), (Files("user:/"), range(40, 66)),
                       (Files("user:/", "user:/sw", "system:/"), range(80, 106))]),
]

Commit = collections.namedtuple("Commit", "handle touched changes")
Set = collections.namedtuple("Set", "handle commits fronts parent values")


class Store:
    """The history, what each handle has got of each mount, and the sets that are held.

    `in_doubt` are those of which the disk may have kept one, though it failed.
    """

    def __init__(self, files, handles, places):
        self.files, self.history, self.in_doubt = files, [], []
        self.fronts = [[None] * len(MOUNTS) for _ in range(handles)]
        self.held = [None] * places

    def values(self, commits):
        """The values of all names after so many commits."""
        values = list(self.files.values)
        for commit in self.history[:commits]:
            for key, value in commit.changes:
                values[key] = value
        return values

    def present(self):
        return self.values(len(self.history))

    def own(self, handle):
        """How many commits a handle made."""
        return sum(1 for commit in self.history if commit.handle == handle)

    def seen(self, handle, mount, front):
        """The values as a handle has seen them of a mount: of one by key its own commits are made on what it got."""
        values = self.values(front)
        for commit in self.history[front:] if mount in self.files.by_key else []:
            for key, value in commit.changes if commit.handle == handle else []:
                values[key] = value
        return values

    def answer(self, event, has_failed=False):
        return {"get": self.get, "prepare": self.prepare, "commit": self.commit}[event[0]](*event[1:], has_failed)

    def get(self, handle, parent, _):
        if handle >= len(self.fronts):
            return "skipped: no handle"
        values, mounts = self.present(), PARENTS[parent][1]
        for mount in mounts:
            self.fronts[handle][mount] = len(self.history)
        there = [(key, value) for key, value in zip(self.files.keys, values) if value is not None and key[1] in mounts]
        shown = [f" {key[0]}={value}" for key, value in there]
        return f"got {len(self.history)} {len(shown)}{''.join(shown)}"

    def prepare(self, handle, number, parent, values, _):
        if handle >= len(self.fronts):
            return "skipped: no handle"
        if number >= len(self.held):
            return "skipped: no place"
        for mount in PARENTS[parent][1]:
            if self.fronts[handle][mount] is None:
                return f"refused not-fetched {MOUNTS[mount][0]}"
        made = Set(handle, self.own(handle), tuple(self.fronts[handle]), parent, tuple(values))
        if TABLE in self.wanted(made).touched and not self.files.is_table(values):
            return "refused bad-table"
        self.held[number] = made
        return "ready"

    def commit(self, handle, number, has_failed):
        if handle >= len(self.fronts):
            return "skipped: no handle"
        held = self.held[number] if number < len(self.held) else None
        if held is None:
            return "skipped: no set"
        if not self.accepts(handle, held):
            return "skipped: not accepted"
        self.held[number] = None
        front, mounts = len(self.history), PARENTS[held.parent][1]
        owners = [owner for (_, owner, _), value in zip(self.files.keys, held.values) if value is not None]
        aside = sum(1 for owner in owners if owner not in mounts)
        commit = self.wanted(held)
        if not commit.touched:
            return f"same {front} aside {aside}"
        for mount in commit.touched:
            for number in range(held.fronts[mount] + 1, front + 1):
                if self.blocks(mount, commit, self.history[number - 1]):
                    return f"conflict {MOUNTS[mount][0]} by {number} front {front}"
        broken = self.broken(commit)
        if broken is not None:
            return f"invalid {self.files.keys[broken[0]][0]} rule 4 given {broken[1]} front {front}"
        if has_failed:
            self.in_doubt.append(commit)
            return f"disk-fault front {front}"
        self.history.append(self.made(held, commit))
        self.in_doubt = []
        for mount in commit.touched:
            self.stored(handle, mount)
        return f"commit {front + 1} aside {aside}"

    def accepts(self, handle, held):
        """The handle made the set, and has neither got what it involves nor made a commit since."""
        is_got = any(held.fronts[m] != self.fronts[handle][m] for m in PARENTS[held.parent][1])
        return held.handle == handle and not is_got and held.commits == self.own(handle)

    def blocks(self, mount, commit, other):
        """Another commit, which lies behind the front of a mount, blocks one there."""
        if mount not in self.files.by_key:
            return mount in other.touched
        names = {key for key, _ in commit.changes if self.files.keys[key][1] == mount}
        return other.handle != commit.handle and any(key in names for key, _ in other.changes)

    def made(self, _, commit):
        """What joins the history of a set."""
        return commit

    def stored(self, handle, mount):
        """A handle's commit has touched a mount: one by key keeps its front."""
        if mount not in self.files.by_key:
            self.fronts[handle][mount] = len(self.history)

    def wanted(self, held):
        """The mounts of which the set has other values than its handle had seen, and these values."""
        changes, mounts = [], PARENTS[held.parent][1]
        for mount in mounts:
            seen = self.seen(held.handle, mount, held.fronts[mount])
            own = [k for k, (_, owner, _) in enumerate(self.files.keys) if owner == mount]
            changes += [(k, held.values[k]) for k in own if held.values[k] != seen[k]]
        touched = [m for m in mounts if any(self.files.keys[k][1] == m for k, _ in changes)]
        return Commit(held.handle, touched, changes)

    def broken(self, commit):
        """The first key of a touched mount that would lie outside the range which it is given then, and its value."""
        values = self.present()
        for key, value in commit.changes:
            values[key] = value
        if values[SPECIFICATION] is None:
            return None
        for key in SPECIFIED:
            if values[key] not in (None, IN_RANGE) and self.files.keys[key][1] in commit.touched:
                return key, values[key]
        return None

    def texts(self, doubt=None):
        """What each file holds: by the history, or by it and one set more."""
        commits = self.history + ([] if doubt is None else [doubt])
        values = self.present()
        for key, value in [] if doubt is None else doubt.changes:
            values[key] = value
        touched, files = {mount for commit in commits for mount in commit.touched}, self.files
        return [files.dump_of(values, m) if m in touched else files.texts.get(m, "") for m in range(len(MOUNTS))]

    def outcomes(self):
        return [self.texts()] + [self.texts(doubt) for doubt in self.in_doubt]


class Numbers:
    """The numbers that decide, each a function of the last."""

    def __init__(self, seed):
        self.state = seed * 2_654_435_761 % 2**32

    def below(self, limit):
        self.state = (self.state * 1_664_525 + 1_013_904_223) % 2**32
        return (self.state >> 8) % limit


def list_of(files, numbers):
    """A list of events by up to three handles, over four places.

    Most handles get everything first, and half of the lists begin with a commit of the specification. Most sets are of
    the present keys, with up to three of them changed, and are committed at once. Where mounts count by key there are
    fewer gets, most sets are of what the handle has seen, and most of their changes are of keys of these mounts.
    """
    store, events, is_by_key = Store(files, 3, 4), [], len(files.by_key) > 0

    def add(event):
        store.answer(event)
        events.append(event)

    for handle in range(3):
        if numbers.below(4) > 0:
            add(("get", handle, 0))
    if numbers.below(2) == 0:
        add(("get", 0, 0))
        add(("prepare", 0, 0, 0, ("1",) + tuple(files.values[1:])))
        add(("commit", 0, 0))
    while len(events) < (MORE_EVENTS if is_by_key else EVENTS):
        kind = numbers.below(8)
        if events and events[-1][0] == "prepare" and kind < 6:
            add(("commit",) + events[-1][1:3])
            continue
        handle, number = (9 if numbers.below(40) == 0 else numbers.below(limit) for limit in (3, 4))
        if kind < (1 if is_by_key else 2):
            add(("get", handle, numbers.below(8)))
        elif kind == 2:
            add(("commit", handle, number))
        else:
            add(("prepare", handle, number) + set_of(store, handle, numbers))
    return events


def set_of(store, handle, numbers):
    """The parent and the values of a set."""
    files, parent = store.files, numbers.below(8)
    values = seen_of(store, handle) if files.by_key and numbers.below(4) > 0 else store.present()
    own = [key for key, (_, owner, _) in enumerate(files.keys) if owner in files.by_key]
    for _ in range(numbers.below(4)):
        is_own = own and numbers.below(4) > 0
        key = own[numbers.below(len(own))] if is_own else numbers.below(len(files.keys))
        values[key] = (None, *files.others(key))[numbers.below(4)]
    return parent, tuple(values)


def seen_of(store, handle):
    """The values as a handle has seen them, the present ones of mounts that it never got."""
    values = store.present()
    for mount, front in enumerate(store.fronts[handle] if handle < len(store.fronts) else []):
        seen = values if front is None else store.seen(handle, mount, front)
        values = [seen[k] if owner == mount else values[k] for k, (_, owner, _) in enumerate(store.files.keys)]
    return values


def failing_of(numbers):
    """Some calls of the disk behind those of the opening."""
    return [numbers.below(100) + 13 for _ in range(numbers.below(12))]


def flushes_of(numbers):
    """How many events are before each of some flushes. A flush answers nothing here and changes nothing of what is wanted."""
    return sorted(numbers.below(EVENTS) + 1 for _ in range(numbers.below(6)))


def shown(text):
    """A file's text on one line."""
    return text.replace("\n", "|n") if text else "nothing"


def lines_of(files, event):
    """The lines of an event: the keys that are prepared, and what is asked."""
    word, handle, *rest = event
    if word == "get":
        return [f"get {handle} {PARENTS[rest[0]][0]}"]
    if word == "commit":
        return [f"commit {handle} {rest[0]}"]
    number, parent, values = rest
    keys = [f" {files.keys[k][0]}={value}" for k, value in enumerate(values) if value is not None]
    if values[SPECIFICATION] is not None:
        keys.append(f" {files.keys[SPECIFICATION][0]}#{RANGE[0]}={RANGE[1]}")
    return ["keys" + "".join(keys), f"prepare {handle} {number} {PARENTS[parent][0]}"]


HEADS = {
    "lists.txt": [
        "# Lists of events that a fixed rule makes up, once as they are and once with calls of the disk that fail. What is wanted of them a slow store says, which",
        "# has no code in common with this one: bench/slow_store.py, which made these lines, too.",
    ],
    "key_lists.txt": [
        "# Such lists where mounts count conflicts by key: user:/sw, then user:/, and then user:/, user:/sw and system:/.",
    ],
}


def head_of(files):
    return ["disk"] + [f"file {MOUNTS[m][1]} {shown(text)}" for m, text in files.texts.items()]


Case = collections.namedtuple("Case", "seed files events asked failing")


def cases(kinds):
    """The lists of a file, those of one kind behind each other: a kind's first lines, and its lists with the lines that
    ask for them and the flushes between, their failing calls, and the number of their crash."""
    for files, seeds in kinds:
        yield head_of(files), [case_of(files, seed) for seed in seeds]


def case_of(files, seed):
    numbers = Numbers(seed)
    events, failing = list_of(files, numbers), failing_of(numbers)
    return Case(seed, files, events, lines_of_list(files, events, flushes_of(numbers)), failing)


def lines_of_list(files, events, flushes):
    lines = ["", "again"]
    for number, event in enumerate(events, 1):
        lines += lines_of(files, event) + ["flush"] * flushes.count(number)
    return lines


def data(name, kinds):
    lines = list(HEADS[name])
    for number, (head, all_of) in enumerate(cases(kinds)):
        lines += ([""] if number else []) + head
        for case in all_of:
            lines += case.asked + [f"fronts {case.seed}"]
            lines += [f"fail {' '.join(map(str, case.failing))}", f"fronts {case.seed}"] if case.failing else []
    return "\n".join(lines) + "\n"


def ends(events):
    """How long the fronts are that end with a commit, and the whole."""
    return [n for n, event in enumerate(events, 1) if event[0] == "commit" or n == len(events)]


def changed(before, now):
    return [f"  {MOUNTS[m][1]} {shown(text)}" for m, text in enumerate(now) if text != before[m]]


def wanted_of(files, events, kind=Store):
    """What is wanted of a list whose disk never fails."""
    store, lines = kind(files, 4, 8), []
    texts, stops = store.texts(), ends(events)
    for number, event in enumerate(events, 1):
        lines.append("  " + store.answer(event))
        if number in stops:
            lines += changed(texts, store.texts())
            texts = store.texts()
    return lines


class Wrong(Exception):
    pass


def believe(files, events, told, counts):
    """Looks at what is told of a list whose disk may fail."""
    store, stops = Store(files, 4, 8), ends(events)
    texts = store.texts()
    for number, event in enumerate(events, 1):
        line = next(told)
        answer = store.answer(event, line.startswith("  disk-fault"))
        counts[answer.split(" ")[0]] += 1
        if line != f"  {answer}":
            raise Wrong(f"{line!r} where {answer!r} is wanted")
        if number in stops:
            for outcome in store.outcomes():
                lines = changed(texts, outcome)
                if told.has_next(lines):
                    texts = outcome
                    break
            else:
                raise Wrong(f"no outcome of the history stands behind {line!r}")


class Told:
    """The lines that were printed of a list, one after the other."""

    def __init__(self, lines):
        self.lines, self.at = lines, 0

    def __next__(self):
        self.at += 1
        return self.lines[self.at - 1] if self.at <= len(self.lines) else ""

    def has_next(self, lines):
        """These lines come next, and no other of a file; then they are behind."""
        end = self.at + len(lines)
        is_file = end < len(self.lines) and self.lines[end].split(" ")[2].endswith(".ecf")
        if self.lines[self.at : end] != lines or is_file:
            return False
        self.at = end
        return True


class Printed:
    """The lines that the program printed of the lists of one file, one after the other."""

    def __init__(self, lines, name):
        self.head = HEADS[name]
        if self.head[0] not in lines:
            raise Wrong(f"no lines of {name} stand there")
        self.lines, self.at, self.name = lines[lines.index(self.head[0]) :], 0, name
        self.take(self.head)

    def take(self, expected):
        for line in expected:
            if self.lines[self.at] != line:
                found = f"{self.lines[self.at]!r} where {line!r} is wanted"
                raise Wrong(f"line {self.at + 1} of {self.name}: {found}")
            self.at += 1

    def told(self):
        """The lines of one answer."""
        first = self.at
        while self.lines[self.at].startswith("  "):
            self.at += 1
        return Told(self.lines[first : self.at])


def check_file(lines, name, kinds, counts):
    """Looks at the lists of one file; gives how many there are."""
    printed, count = Printed(lines, name), 0
    for number, (head, all_of) in enumerate(cases(kinds)):
        printed.take(([""] if number else []) + head)
        for case in all_of:
            wanted = wanted_of(case.files, case.events)
            printed.take(case.asked + [f"fronts {case.seed}"] + wanted)
            counts.update(line.split(" ")[2] for line in wanted if not line.split(" ")[2].endswith(".ecf"))
            if case.failing:
                printed.take([f"fail {' '.join(map(str, case.failing))}", f"fronts {case.seed}"])
                told = printed.told()
                believe(case.files, case.events, told, counts)
                if told.at != len(told.lines):
                    raise Wrong(f"list {case.seed}: {told.lines[told.at]!r} is told, and nothing is wanted")
            count += 1
    if printed.lines[printed.at] not in ("", *(head[0] for head in HEADS.values())):
        raise Wrong(f"{printed.lines[printed.at]!r} stands behind the lists of {name}")
    return count


def check(text):
    counts = collections.Counter()
    lists = sum(check_file(text.split("\n"), name, kinds, counts) for name, kinds in KINDS)
    told = ", ".join(f"{word.strip(':')} {count}" for word, count in counts.most_common())
    return f"{lists} lists are as the slow store has them: {told}"


# ---- stores that are wrong

class LetsAnOwnCommitBlock(Store):
    """An own commit behind the front of a mount by key blocks."""

    def blocks(self, mount, commit, other):
        return super().blocks(mount, commit._replace(handle=None), other)


class LetsAnotherKeyBlock(Store):
    """A change of any key of a mount by key blocks."""

    def blocks(self, mount, commit, other):
        return mount in other.touched and (mount not in self.files.by_key or other.handle != commit.handle)


class LetsTheSameKeyPass(Store):
    """No commit blocks at a mount by key."""

    def blocks(self, mount, commit, other):
        return mount not in self.files.by_key and super().blocks(mount, commit, other)


class BlocksByTheNameAlone(Store):
    """A key of another touched mount blocks at a mount by key, too."""

    def blocks(self, mount, commit, other):
        names = {key for key, _ in commit.changes}
        is_by_key = mount in self.files.by_key and other.handle != commit.handle
        return any(key in names for key, _ in other.changes) if is_by_key else super().blocks(mount, commit, other)


class MovesTheFront(Store):
    """A commit moves the front of a mount by key."""

    def stored(self, handle, mount):
        self.fronts[handle][mount] = len(self.history)


class ForgetsItsOwn(Store):
    """What a handle has seen of a mount by key is what it got, without its own commits."""

    def seen(self, handle, mount, front):
        return self.values(front)


class SeesAll(Store):
    """What a handle has seen of a mount by key is what is there."""

    def seen(self, handle, mount, front):
        return self.present() if mount in self.files.by_key else self.values(front)


class AcceptsAfterACommit(Store):
    """A set is accepted though its handle has made a commit since."""

    def accepts(self, handle, held):
        return super().accepts(handle, held._replace(commits=self.own(handle)))


class WritesTheOldText(Store):
    """What a set wanted of a mount by key is there behind it, and not what others changed."""

    def made(self, held, commit):
        values, changes = self.present(), dict(commit.changes)
        for key, (_, owner, _) in enumerate(self.files.keys):
            if owner in commit.touched and values[key] != held.values[key]:
                changes.setdefault(key, held.values[key])
        return commit._replace(changes=sorted(changes.items()))


class CountsAllByBackend(Store):
    """The way to count is not looked at."""

    def __init__(self, files, handles, places):
        super().__init__(files, handles, places)
        self.files = copy.copy(files)
        self.files.by_key = set()


STORES = [LetsAnOwnCommitBlock, LetsAnotherKeyBlock, LetsTheSameKeyPass, BlocksByTheNameAlone, MovesTheFront,
          ForgetsItsOwn, SeesAll, AcceptsAfterACommit, WritesTheOldText, CountsAllByBackend]


def selftest():
    lists = [case for _, kinds in KINDS for _, all_of in cases(kinds) for case in all_of]
    for kind in STORES:
        told = sum(1 for it in lists if wanted_of(it.files, it.events, kind) != wanted_of(it.files, it.events))
        print(f"{told:4} of {len(lists)} lists tell it: {kind.__doc__}")
        if not told:
            raise Wrong("no list tells it")


def main(word="", path=WANTED):
    if word == "lists":
        for name, kinds in KINDS:
            with open(f"{DATA}/{name}", "w", encoding="utf-8") as file:
                file.write(data(name, kinds))
    elif word == "answers":
        for name, kinds in KINDS:
            print("\n".join(HEADS[name]))
            for number, (head, all_of) in enumerate(cases(kinds)):
                print("\n".join(([""] if number else []) + head))
                for case in all_of:
                    print("\n".join(case.asked + [f"fronts {case.seed}"] + wanted_of(case.files, case.events)))
    elif word == "check":
        with open(path, encoding="utf-8") as file:
            print(check(file.read()))
    elif word == "selftest":
        selftest()
    else:
        sys.exit(__doc__)


if __name__ == "__main__":
    try:
        main(*sys.argv[1:])
    except Wrong as wrong:
        sys.exit(str(wrong))
