"""What files mean to bench/fair.py: the journal, the mount table, and the opened store. Written from the definitions
alone, with no code in common with the tool's.
"""
import functools
import re

from fair_formats import READERS, WRITERS, BadFile, read_dump
from fair_keys import (CASCADING, DIR, HEAVIEST_MAP, LONGEST_PATH, NAMESPACES, PROC, SPEC, SYSTEM, USER,
                       is_below_or_same, joined, name_of, path_bytes, quoted, relative, shown, size, spelling, weight)

LONGEST_FILE, MOST_MOUNTS, LONGEST_POINT = 2**20, 64, 1024
# The formats whose mounts may count conflicts by key.
KEYWISE = ("dump", "simpleini")
ELEKTRA = (SYSTEM, ("elektra",))
MOUNTPOINTS = (SYSTEM, ("elektra", "mountpoints"))
# A mount: its mountpoint, its file, its format, and whether it counts conflicts by key.
DEFAULTS = [((space, ()), NAMESPACES[space] + ".ecf", "dump", False) for space in (SPEC, DIR, USER, SYSTEM)]


class NotOpened(Exception):
    """Why a store isn't opened, as its line has it behind `kdb: `."""


# ---- the journals

# the file that the former program kept its list in, and this one's, whose list stands behind a head
FORMER, JOURNAL = "journal", "journal2"
OWN = {FORMER, JOURNAL}

MOST_FILES, MOST_ENTRIES, LAST_PLACE, LONGEST_HEADER = 64, 32, 67_200_005, 6_465


class BadJournal(Exception):
    """The place that is told of the head or of the first open entry that isn't whole."""


class UnknownVersion(Exception):
    """The version of an open journal that this program doesn't know."""


class List:
    """A list of entries: its bytes from the first gate on, the place of that gate in the file, and behind a head the
    names that its entries may have. Places are counted in the body of an entry, and behind a head from the file's
    first byte.
    """

    def __init__(self, data, start=0, names=None):
        self.data, self.start, self.names = data, start, names

    def bad(self, at, place):
        return BadJournal(place if self.names is None else self.start + at + 5 + place)

    def too_late(self, at):
        return BadJournal(0 if self.names is None else self.start + at + 1)


def count_in(body):
    """How many files a body says that it has, with either form of its count."""
    return body[0] - 128 if body[0] > 128 else body[0]


def name_at(data, at, last):
    """The name behind its length at a place, and where it ends."""
    if at == len(data):
        raise BadJournal(at)
    count, at = data[at], at + 1
    name = data[at : at + count].decode("latin1")
    if len(name) < count or not is_file_name(name) or name.startswith("journal") or name <= last:
        raise BadJournal(at)
    return name, at + count


def body_of(body, names=None):
    """The files of a body, or the place of its first field that is missing, cut or against a rule."""
    if not body or not 1 <= count_in(body) <= MOST_FILES or names is not None and body[0] <= 128:
        raise BadJournal(0)
    files, last, at = {}, "", 1
    for _ in range(count_in(body)):
        begin = at + 1
        name, at = name_at(body, at, last)
        if names is not None and name not in names:
            raise BadJournal(begin)
        if at + 4 > len(body):
            raise BadJournal(at)
        many, at = int.from_bytes(body[at : at + 4], "little"), at + 4
        if at + many > len(body) or many > LONGEST_FILE:
            raise BadJournal(at)
        files[name], last, at = body[at : at + many], name, at + many
    if at < len(body):
        raise BadJournal(at)
    return files


def header_of(header):
    """The names of a header, or the place of its first field that is missing, cut or against a rule."""
    if not header or not 1 <= header[0] <= MOST_FILES:
        raise BadJournal(0)
    names, last, at = [], "", 1
    for _ in range(header[0]):
        last, at = name_at(header, at, last)
        names.append(last)
    if at < len(header):
        raise BadJournal(at)
    return names


def head_of(journal):
    """The list behind the head of a journal whose header gate is taken as open."""
    if journal[1] != 2:
        raise UnknownVersion(journal[1])
    size = int.from_bytes(journal[2:6], "little")
    if size > LONGEST_HEADER:
        raise BadJournal(2)
    header = journal[6 : 6 + size]
    try:
        names = header_of(header)
    except BadJournal as at:
        raise BadJournal(6 + at.args[0]) from at
    if len(header) < size:
        raise BadJournal(6 + len(header))
    return List(journal[6 + size :], 6 + size, names)


def entry_at(held, at, number):
    """The entry behind the gate at a place of a list, the size of its body, and whether another gate stands behind."""
    size = int.from_bytes(held.data[at + 1 : at + 5], "little")
    body = held.data[at + 5 : at + 5 + size]
    if number == MOST_ENTRIES or at + 5 + size > LAST_PLACE:
        raise held.too_late(at)
    try:
        files = body_of(body, held.names)
    except BadJournal as place:
        raise held.bad(at, place.args[0]) from place
    if len(body) < size:
        raise held.bad(at, len(body))
    return files, size, body[0] > 128


def entries_of(held):
    """The open entries of a list as an opening reads them: a gate that is neither 0 nor 1 counts as closed."""
    entries, at = [], 0
    while at + 5 <= len(held.data) and held.data[at] == 1:
        files, size, goes_on = entry_at(held, at, len(entries))
        entries.append(files)
        if not goes_on:
            break
        at += 5 + size
    return entries


def open_entries(files):
    """The open entries of both journals: those of the former one come first."""
    former, journal = files.get(FORMER, b""), files.get(JOURNAL, b"")
    entries = entries_of(List(former))
    return entries + (entries_of(head_of(journal)) if len(journal) >= 6 and journal[0] == 1 else [])


def list_readings(held, at=0, number=0):
    """Each list of entries as which a list may be read: a gate that is neither 0 nor 1 may be taken as either."""
    if at + 5 > len(held.data) or held.data[at] == 0:
        return [[]]
    files, size, goes_on = entry_at(held, at, number)
    behind = list_readings(held, at + 5 + size, number + 1) if goes_on else [[]]
    return ([[]] if held.data[at] != 1 else []) + [[files, *others] for others in behind]


def journal_readings(journal):
    if len(journal) < 6 or journal[0] == 0:
        return [[]]
    return ([[]] if journal[0] != 1 else []) + list_readings(head_of(journal))


def readings(files):
    """Each list of entries as which the journals of an image may be read, that of its opening first."""
    former, journal = list_readings(List(files.get(FORMER, b""))), journal_readings(files.get(JOURNAL, b""))
    if any(former) and any(journal):
        raise BadJournal("both journals have entries")
    return [before + behind for before in former for behind in journal]


def with_entries(files, entries):
    """The files of a folder but for the journals, with the contents of some entries over them."""
    held = {name: data for name, data in files.items() if name not in OWN}
    for entry in entries:
        held.update(entry)
    return held


def outcomes(files):
    """What the files of an image stand for; nothing where its journals are broken."""
    try:
        return [with_entries(files, entries) for entries in readings(files)]
    except (BadJournal, UnknownVersion):
        return []


def is_left_open(files):
    """Whether an opening of some files would bring anything in, or refuse them."""
    try:
        return bool(open_entries(files))
    except (BadJournal, UnknownVersion):
        return True


def journal_of(names, *entries):
    """A journal with a head of these names, and some entries, each some files, whose gates are open."""
    header = bytes([len(names)]) + b"".join(bytes([len(it)]) + it.encode() for it in sorted(names))
    return b"\1\2" + len(header).to_bytes(4, "little") + header + former_of(*entries)


def former_of(*entries):
    """A list of some entries whose gates are open, as behind a kill of a batch: a former journal."""
    whole = b""
    for files in entries:
        body = bytes([128 + len(files)])
        for name, held in sorted(files.items()):
            body += bytes([len(name)]) + name.encode() + len(held).to_bytes(4, "little") + held
        whole += b"\1" + len(body).to_bytes(4, "little") + body
    return whole + b"\0"


# ---- the mount table

def is_file_name(text):
    return re.fullmatch(r"[A-Za-z0-9_-][A-Za-z0-9._-]{0,99}", text) is not None


def point_of(text):
    """The mountpoint that an entry names, None where it may be none."""
    name = name_of(text)
    fits = name and spelling(name) == text and size(text) <= LONGEST_POINT and name[0] in (SPEC, DIR, USER, SYSTEM)
    return name if fits and not is_below_or_same(name, ELEKTRA) else None


def entry_fault(part, entry, taken):
    """What is wrong with one entry, or None."""
    path, plugin, counting = entry.get("path"), entry.get("plugin", "dump"), entry.get("conflicts", "backend")
    if point_of(part) is None:
        return "bad-mountpoint"
    if path is None:
        return "no-path"
    if not is_file_name(path) or path.startswith("journal"):
        return "bad-path"
    if plugin not in READERS:
        return "unknown-plugin"
    if path in taken:
        return "file-twice"
    return None if counting == "backend" or counting == "keys" and plugin in KEYWISE else "bad-conflicts"


def table_of(keys):
    """The mounts of the keys of `system:/elektra`, or what is wrong with them as the line has it."""
    entries, depth = {}, len(MOUNTPOINTS[1])
    for name in sorted(keys):
        if is_below_or_same(name, MOUNTPOINTS) and name != MOUNTPOINTS:
            entry = entries.setdefault(name[1][depth], {})
            if len(name[1]) == depth + 2:
                entry[name[1][-1]] = keys[name][0]
    replaced = {spelling(point) for point, *_ in DEFAULTS if spelling(point) in entries}
    mounts = [it for it in DEFAULTS if spelling(it[0]) not in replaced] + [(ELEKTRA, "elektra.ecf", "dump", False)]
    taken = {file for _, file, *_ in mounts}
    for part, entry in sorted(entries.items()):
        fault = entry_fault(part, entry, taken)
        if fault:
            return None, f"{fault} {quoted(part)}"
        taken.add(entry["path"])
        mounts.append((point_of(part), entry["path"], entry.get("plugin", "dump"), entry.get("conflicts") == "keys"))
    if len(mounts) > MOST_MOUNTS:
        return None, f"too-many {len(mounts)}"
    return sorted(mounts), None


# ---- the opened store

class Store:
    """What files mean: the mounts, which of them are bad, what they keep for others, and the visible keys."""

    def __init__(self, files):
        try:
            self.files = with_entries(files, open_entries(files))
        except BadJournal as why:
            raise NotOpened(f"C03100 bad-journal {why}") from why
        except UnknownVersion as why:
            raise NotOpened(f"C03100 journal-version {why}") from why
        self.mounts = self.table()
        self.points = [point for point, *_ in self.mounts]
        self.by_key = [by_key for *_, by_key in self.mounts]
        self.owner, self.involved = functools.cache(self._owner), functools.cache(self._involved)
        self.bad, self.shadows, self.start = {}, [{} for _ in self.mounts], [{} for _ in self.mounts]
        for mount in range(len(self.mounts)):
            self.read(mount)
        self.weigh()

    def table(self):
        data, at = self.files.get("elektra.ecf", b""), shown(ELEKTRA)
        if len(data) > LONGEST_FILE:
            raise NotOpened(f"C01100 too-long {at} {len(data)}")
        try:
            keys = {joined(ELEKTRA, name): entry for name, entry in read_dump(data).items()}
        except BadFile as why:
            raise NotOpened(f"C03100 bad-file {at} {why}") from why
        if any(path_bytes(name) > LONGEST_PATH for name in keys):
            raise NotOpened(f"C03100 bad-file {at} 0")
        mounts, fault = table_of(keys)
        if fault:
            raise NotOpened(f"C03200 bad-table {fault}")
        return mounts

    def _owner(self, name):
        """The mount with the longest mountpoint that is a name or above it."""
        above = [m for m, point in enumerate(self.points) if is_below_or_same(name, point)]
        return max(above, key=lambda m: len(self.points[m][1]), default=None)

    def _involved(self, parent):
        spaces = (SPEC, DIR, USER, SYSTEM) if parent[0] == CASCADING else (parent[0],)
        found = set()
        for name in ((space, parent[1]) for space in spaces):
            found.add(self.owner(name))
            found |= {m for m, point in enumerate(self.points) if is_below_or_same(point, name)}
        return sorted(found - {None})

    def read(self, mount):
        """Reads a mount's file: its visible keys under whole names, and those that another mount hides."""
        point, file, kind, _ = self.mounts[mount]
        data, at = self.files.get(file, b""), shown(point)
        if len(data) > LONGEST_FILE:
            self.bad[mount] = f"C01100 too-long {at} {len(data)}"
            return
        try:
            keys = READERS[kind](data)
        except BadFile as why:
            self.bad[mount] = f"C03100 bad-file {at} {why}"
            return
        whole = {joined(point, name): entry for name, entry in keys.items()}
        if any(path_bytes(name) > LONGEST_PATH for name in whole):
            self.bad[mount] = f"C03100 bad-file {at} 0"
            return
        for name, entry in whole.items():
            (self.start if self.owner(name) == mount else self.shadows)[mount][name] = entry

    def weigh(self):
        """Marks the mounts that bring all visible keys over the weight."""
        total, elektra = 0, self.points.index(ELEKTRA)
        for mount in [elektra] + [m for m in range(len(self.mounts)) if m != elektra]:
            heavy = weight(self.start[mount])
            if mount in self.bad:
                continue
            if total + heavy > HEAVIEST_MAP:
                self.bad[mount] = f"C01100 too-heavy {shown(self.points[mount])} {total + heavy}"
                self.start[mount] = {}
            else:
                total += heavy

    def filed(self, mount, keys):
        """What a mount's file is to hold: keys that it owns and those that it keeps, under relative names."""
        return {relative(name, self.points[mount]): entry for name, entry in {**keys, **self.shadows[mount]}.items()}

    def text(self, mount, keys):
        return WRITERS[self.mounts[mount][2]](self.filed(mount, keys))

    def in_proc(self, parent):
        """A get of this parent gives the handle's keys in `proc`, too."""
        return parent[0] in (CASCADING, PROC)
