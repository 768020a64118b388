"""Scripts for bench/fair.py: how they read, and how they are made up with the files that they begin with."""
import collections
import random
import re

from fair_files import journal_of
from fair_formats import dump_of
from fair_keys import (CASCADING, LONGEST_META, PROC, name_of, plain, quoted, size, spelling, unquoted_at)

MOST_SESSIONS, LONGEST_SCRIPT, MOST_LINES, MOST_TRIES, LARGEST_ROOM = 32, 4 * 2**20, 100_000, 100_000, 4096
LARGEST_NUMBER = 1_000_000_000
STRATEGIES = ("abort", "our", "their")


class BadScript(Exception):
    """The line at which a script has no reading, or that it is too long."""


# ---- scripts

Step = collections.namedtuple("Step", "word name meta value strategy tries room number", defaults=(None,) * 6)
Script = collections.namedtuple("Script", "procs phases sessions")


def words_of(line):
    """The words of a line, None where they are no words."""
    words, at = [], 0
    while True:
        at += len(line[at:]) - len(line[at:].lstrip(" \t"))
        if at == len(line):
            return words
        if line[at] == '"':
            found = unquoted_at(line, at)
            if not found or line[found[1] : found[1] + 1] not in ("", " ", "\t"):
                return None
            words.append(found[0])
            at = found[1]
        else:
            word = re.match(r"[^ \t]+", line[at:])[0]
            words.append(word)
            at += len(word)


def count_of(word, most):
    """A number from 1 to another, None where a word is none."""
    return int(word) if re.fullmatch("[1-9][0-9]{0,9}", word) and int(word) <= most else None


def session_of(word):
    return count_of(word, MOST_SESSIONS)


def step_of(words):
    """The step of a line's words, or None."""
    if words == ["poll"]:
        return Step("poll", None)
    if words[0] == "undo":
        is_one = len(words) == 2 and count_of(words[1], LARGEST_NUMBER)
        return Step("undo", None, number=int(words[1])) if is_one else None
    word, names = words[0], [name_of(it) for it in words[1:2]]
    if not names or names[0] is None:
        return None
    name, rest = names[0], words[2:]
    if word in ("get", "del", "look", "set") and not rest or word == "cut" and not rest and name[0] != CASCADING:
        return Step(word, name)
    if word == "put" and len(rest) == 1:
        return Step(word, name, None, rest[0])
    if word == "meta" and len(rest) == 2 and 1 <= size(rest[0]) <= LONGEST_META:
        return Step(word, name, rest[0], rest[1])
    if word == "merge" and len(rest) == 2 and rest[0] in STRATEGIES and count_of(rest[1], MOST_TRIES):
        return Step(word, name, strategy=rest[0], tries=int(rest[1]))
    if word == "watch" and len(rest) == 1 and count_of(rest[0], LARGEST_ROOM):
        return Step(word, name, room=int(rest[0]))
    return None


def proc_of(words):
    """The session and the key of a line `proc`, or None."""
    session, path = (session_of(words[1]), name_of(words[2])) if len(words) == 4 else (None, None)
    is_one = session and path and path[0] == CASCADING
    return (session, (PROC, path[1]), words[3]) if is_one else None


class Reading:
    """A script that is read line by line."""

    def __init__(self):
        self.procs, self.phases, self.named, self.is_header = {}, [{}], None, True

    def line(self, line):
        """Reads a line; says whether it has a meaning."""
        try:
            text = line.decode()
        except UnicodeDecodeError:
            return False
        text = text[:-1] if text.endswith("\r") else text
        if text.lstrip(" \t")[:1] in ("", "#"):
            return True
        words = words_of(text)
        if not words:
            return False
        if words[0] == "proc":
            return self.proc(words)
        if words[0] == "session":
            self.named, self.is_header = session_of(words[1]) if len(words) == 2 else None, False
            return self.named is not None
        if words[0] == "phase":
            self.named, self.is_header = None, False
            self.phases.append({})
            return len(words) == 1
        step = step_of(words)
        if not step or self.named is None:
            return False
        self.phases[-1].setdefault(self.named, []).append(step)
        return True

    def proc(self, words):
        said = proc_of(words)
        if said and self.is_header:
            self.procs.setdefault(said[0], {})[said[1]] = plain(said[2])
        return bool(said and self.is_header)


def script_of(data):
    lines = data.split(b"\n")
    lines = lines[:-1] if lines[-1] == b"" else lines
    if len(data) > LONGEST_SCRIPT or len(lines) > MOST_LINES:
        raise BadScript("too long")
    reading = Reading()
    for number, line in enumerate(lines, 1):
        if not reading.line(line):
            raise BadScript(number)
    sessions = sorted({*reading.procs, *(it for phase in reading.phases for it in phase)})
    return Script(reading.procs, reading.phases, sessions)


# ---- scripts that are made up

PLACES = [
    ("user:/sw", "sw.ini", "simpleini"),
    ("system:/hosts", "hosts", "hosts"),
    ("user:/web", "web.json", "json"),
    ("user:/deep/er", "deep.ecf", "dump"),
]
ROOTS = [("user:/", "user.ecf", "dump"), ("system:/", "system.ecf", "dump")]
PARENTS = ["/", "/", "user:/", "user:/", "user:/", "system:/", "user:/sw", "user:/deep", "system:/hosts", "dir:/",
           "/sw", "/a", "user:/a", "user:/web", "proc:/a", "default:/a", "spec:/", "system:/elektra"]
NAMES = ["user:/a", "user:/b", "user:/b/c", "user:/sw/a", "user:/sw/b", "user:/deep/er/x", "user:/odd name", "user:/%",
         "user:/web/a", "user:/web/b/c", "user:/web/list/#0", "user:/web/list/#1", "user:/web/list/#2",
         "system:/a", "system:/b", "dir:/a", "dir:/sw/b", "proc:/a", "default:/b"]
HOSTS = ["system:/hosts/ipv4/box", "system:/hosts/ipv4/box/alias", "system:/hosts/ipv6/six"]
SPECS = ["spec:/a", "spec:/b", "spec:/sw/_", "spec:/sw/b"]
LOOKS = ["/a", "/b", "/sw/a", "/sw/b", "user:/a", "default:/a", "default:/sw/b", "proc:/a", "spec:/a", "system:/none"]
VALUES = ["1", "2", "7", "10", "yes", "off", "word", "", "two words", 'a "quote"', "a\nline", "\\", "\x7f"]
ADDRESSES = ["10.0.0.1", "::1", "", "no blank", "10.0.0.2"]
SAYINGS = [("type", "boolean"), ("type", "octet"), ("type", "string"), ("type", "strange"), ("check/range", "1-9"),
           ("check/range", "9-1"), ("check/enum/#0", "1"), ("check/enum/#1", "word"),
           ("check/validation", "^[a-z0-9]*$"), ("check/validation", "("),
           ("default", "5"), ("default", "yes"), ("override/#0", "system:/b"),
           ("override/#0", "/b"), ("override/#0", "no name"), ("fallback/#0", "user:/b"), ("namespace/#0", "system"),
           ("namespace/#0", "nowhere"), ("namespace/#1", "user"), ("note", "said")]
TRIES = ["1", "2", "2", "3", "10", "100", "100000"]
ROOMS = ["1", "1", "2", "3", "10", "4096"]
ENTRIES = [("system:/elektra/mountpoints/user:\\/new/path", "new.ecf"),
           ("system:/elektra/mountpoints/user:\\/new/path", "user.ecf"),
           ("system:/elektra/mountpoints/user:\\/new/plugin", "hosts"),
           ("system:/elektra/mountpoints/user:\\/new/conflicts", "keys"),
           ("system:/elektra/mountpoints/nowhere/path", "n.ecf")]


def word(text, chance):
    """A word of a script that stands for a text."""
    is_bare = text and not re.search('^"|^#|[ \t\n]', text)
    if is_bare and chance.random() < 0.8:
        return text
    said = quoted(text)
    return said.replace("\\n", "\\x0A") if chance.random() < 0.3 and "\\\\" not in said else said


class Making:
    """The making of a script, by the numbers of a seed."""

    def __init__(self, seed, most=2000):
        self.chance, self.seed = random.Random(seed), seed
        self.lines, self.left, self.longs, self.stores = [], most, 0, 0

    def line(self, *words):
        gap = self.chance.choice([" ", " ", " ", "  ", "\t"])
        self.lines.append(gap.join([words[0], *(word(it, self.chance) for it in words[1:])]))

    def step(self, *words):
        self.line(*words)
        self.left -= 1

    def edit(self, parent="/"):
        """An edit, most often of a key that a parent involves."""
        pick, turn = self.chance.choice, self.chance.random()
        names = [it for it in NAMES if it.startswith(parent)] or NAMES
        if turn < 0.5:
            self.step("put", pick(names), pick([pick(VALUES), str(self.chance.randrange(100))]))
        elif turn < 0.6:
            self.step("put", pick(HOSTS), pick(ADDRESSES))
        elif turn < 0.64:
            self.step("meta", pick(HOSTS), pick(["comment/#0", "comment/#1"]), pick(VALUES))
        elif turn < 0.74:
            self.step("meta", pick(SPECS), *pick(SAYINGS))
        elif turn < 0.78:
            self.step("meta", pick(NAMES), *pick(SAYINGS))
        elif turn < 0.93:
            self.step("del", pick(NAMES + NAMES + HOSTS + SPECS))
        elif turn < 0.97:
            self.step("cut", pick(["user:/b", "user:/sw", "system:/hosts/ipv4", "spec:/", "dir:/"]))
        elif turn < 0.99:
            self.step("put", *pick(ENTRIES))
        else:
            self.long()

    def long(self):
        """A value that is too long, or a file that comes to be: at most two in a script."""
        self.longs += 1
        if self.seed % 4 or self.longs > 2:
            self.step("put", self.chance.choice(NAMES), "v")
        elif self.longs == 1:
            self.step("put", self.chance.choice(NAMES), "v" * 65537)
        else:
            for number in range(17):
                self.step("put", f"user:/long/{number}", "v" * 65536)

    def store(self, parent):
        """Stores a working set, with or without merging."""
        self.stores += 1
        if self.chance.random() < 0.4:
            self.step("merge", parent, self.chance.choice(STRATEGIES), self.chance.choice(TRIES))
        else:
            self.step("set", parent)

    def turn(self):
        """A few steps of a session."""
        pick, turn = self.chance.choice, self.chance.random()
        parent = pick(PARENTS)
        if turn < 0.46:
            self.step("get", parent)
            for _ in range(self.chance.randrange(4)):
                self.edit(parent)
            self.store(parent)
        elif turn < 0.58:
            self.store(parent)
        elif turn < 0.66:
            self.step("get", parent)
        elif turn < 0.78:
            self.edit()
        elif turn < 0.86:
            self.step("look", pick(LOOKS))
        elif turn < 0.89:
            self.step("watch", parent, pick(ROOMS))
        elif turn < 0.94:
            self.step("poll")
        else:
            number = self.chance.randint(1, self.stores // 2 + 1) if self.chance.random() < 0.9 else LARGEST_NUMBER
            self.step("undo", str(number))
        if self.chance.random() < 0.05:
            self.lines.append(pick(["", "# a comment", "   ", "\t#"]))

    def script(self, sessions=None, phases=None, is_alone=False):
        """The lines of a script. One of sessions that are alone in their phases has one text, however threads run."""
        chance, most = self.chance, self.left
        sessions = sessions or chance.choice([1, 2, 3, 4, 8, 16, 32])
        phases = phases or chance.randint(1, 8)
        numbers = sorted(chance.sample(range(1, MOST_SESSIONS + 1), sessions))
        for _ in range(chance.randrange(4)):
            path, value = chance.choice(["/a", "/b", "/sw/b", "/./a"]), chance.choice(VALUES)
            self.line("proc", str(chance.choice(numbers)), path, value)
        for number in range(phases):
            if number:
                self.lines.append("phase")
            alone = str(chance.choice(numbers))
            while self.left > most * (phases - 1 - number) // phases:
                self.line("session", alone if is_alone else str(chance.choice(numbers)))
                for _ in range(chance.randint(1, 6)):
                    self.turn()
        end = chance.choice(["\n", "\n", "\r\n"])
        return "".join(f"{line}{end}" for line in self.lines).encode()


def key(text, value, *meta):
    return name_of(text), (value, tuple(sorted(meta)))


def relative_keys(*keys):
    return {(CASCADING, name[1]): entry for name, entry in keys}


def part_of(point):
    return "/mountpoints/" + spelling((CASCADING, (point,)))[1:]


def entry_of(point, file, kind):
    """The keys of a mount's entry."""
    part = part_of(point)
    return [key(f"{part}/path", file)] + ([key(f"{part}/plugin", kind)] if kind != "dump" else [])


def counting_of(seed, entries):
    """The keys that have some mounts count conflicts by key, those of the roots of users and of the system among them."""
    chance, there = random.Random(f"counting {seed}"), {name for name, _ in entries}
    keys = []
    for point, file, kind in ROOTS + [it for it in PLACES if it[2] in ("dump", "simpleini")]:
        is_root = (point, file, kind) in ROOTS
        if chance.random() < 0.5 and (is_root or key(f"{part_of(point)}/path", "")[0] in there):
            keys += entry_of(point, file, kind) if is_root else []
            keys.append(key(f"{part_of(point)}/conflicts", "keys"))
    return keys


def files_of(seed):
    """The files that a script begins with, by the numbers of its seed."""
    chance, files = random.Random(f"files {seed}"), {}
    if chance.random() < 0.1:
        return files
    entries = []
    for point, file, kind in PLACES:
        if chance.random() < 0.8:
            entries += entry_of(point, file, kind)
    entries += counting_of(seed, entries)
    files["elektra.ecf"] = dump_of(relative_keys(*entries))
    # What stands below another mount is kept, and shown by nobody.
    files["user.ecf"] = dump_of(relative_keys(key("/a", "1"), key("/b", "2", ("note", "x")), key("/sw/hidden", "h"),
                                              key("/deep/er/hidden", "h", ("note", "y"))))
    files["sw.ini"] = b"; a comment\n a = 1 \nb\\=c=\\s2\n"
    files["hosts"] = b"# first\n10.0.0.1\tbox alias # here\n::1 six\n"
    files["web.json"] = b'{ "list": ["x", 2], "a": true, "b": {"c": "\\u0041"} }\n'
    if chance.random() < 0.5:
        specs = key("/sw/_", "", chance.choice(SAYINGS)), key("/b", "", ("default", "3"))
        files["spec.ecf"] = dump_of(relative_keys(*specs))
    if chance.random() < 0.2:
        file = chance.choice(["dir.ecf", "hosts", "sw.ini", "web.json", "deep.ecf"])
        files[file] = b"kdbOpen 2\n$key string 1 1\nx\n[\n"
    if chance.random() < 0.3:
        body = body_with("user.ecf", dump_of(relative_keys(key("/a", "brought in"))))
        gate = chance.choice([0, 1])
        files["journal"] = bytes([gate]) + len(body).to_bytes(4, "little") + body + b"rest"
    elif chance.random() < 0.3:
        entry = {"user.ecf": dump_of(relative_keys(key("/a", "brought in")))}
        gate = chance.choice([0, 1])
        files["journal2"] = bytes([gate]) + journal_of(["user.ecf"], entry)[1:] + b"rest"
    return files


def body_with(name, data):
    return b"\1" + bytes([len(name)]) + name.encode() + len(data).to_bytes(4, "little") + data
