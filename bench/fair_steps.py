"""What the steps of a session mean for bench/fair.py, by the history that the store comes to have."""
import bisect
import collections

from fair_files import ELEKTRA, LONGEST_FILE, table_of
from fair_formats import NotStorable
from fair_keys import (CASCADING, HEAVIEST_HISTORY, HEAVIEST_MAP, LONGEST_TEXT, Specified, broken, is_below_or_same,
                       joined, quoted, shown, size, weight, weight_of_entry, weight_of_name, with_meta, with_value)

EDITS = ("put", "meta", "del", "cut")


# ---- histories

# the session whose commit it is, the mounts that it touches, and its changes: names, each with its entry or None
Commit = collections.namedtuple("Commit", "session touched changes")


def weight_of_commit(commit):
    each = (16 + weight_of_name(name) + (weight_of_entry(entry) if entry else 0) for name, entry in commit.changes)
    return 64 + sum(each)


class History:
    """The commits of a store, and what each mount owns after so many of them."""

    def __init__(self, store):
        self.store, self.commits, self.weights = store, [], [0]
        # for each mount the numbers of the commits that touch it, and the keys that it owns then; the weight of these
        self.numbers = [[0] for _ in store.mounts]
        self.maps = [[keys] for keys in store.start]
        self.heavy = [[weight(keys)] for keys in store.start]

    def __len__(self):
        return len(self.commits)

    def push(self, commit):
        self.commits.append(commit)
        self.weights.append(self.weights[-1] + weight_of_commit(commit))
        for mount in commit.touched:
            keys, heavy = changed(self.maps[mount][-1], self.heavy[mount][-1], self.changes(mount, commit))
            self.numbers[mount].append(len(self.commits))
            self.maps[mount].append(keys)
            self.heavy[mount].append(heavy)

    def place(self, mount, front):
        return bisect.bisect_right(self.numbers[mount], front) - 1

    def owned(self, mount, front):
        """What a mount owns after the first so many commits."""
        return self.maps[mount][self.place(mount, front)]

    def weighed(self, mount, front):
        return self.heavy[mount][self.place(mount, front)]

    def after(self, mount, front, most):
        """The commits behind a front that touch a mount, among the first so many, with their numbers."""
        numbers = self.numbers[mount]
        for at in range(self.place(mount, front) + 1, len(numbers)):
            if numbers[at] > most:
                return
            yield numbers[at], self.commits[numbers[at] - 1]

    def changes(self, mount, commit):
        """What a commit changes of a mount."""
        return [it for it in commit.changes if self.store.owner(it[0]) == mount]

    def touched(self, front):
        return {mount for commit in self.commits[:front] for mount in commit.touched}


def changed(keys, heavy, changes):
    """Keys with changes, and their weight."""
    keys = dict(keys)
    for name, entry in changes:
        if name in keys:
            heavy -= weight({name: keys.pop(name)})
        if entry:
            keys[name] = entry
            heavy += weight({name: entry})
    return keys, heavy


# ---- what a set comes to

Wanted = collections.namedtuple("Wanted", "touched changes aside wants")


def differing(before, wants):
    return [(name, wants.get(name)) for name in {*before, *wants} if before.get(name) != wants.get(name)]


# what a session watches: the keys at and below a parent, from a front on, and how many changes are kept for it
Watch = collections.namedtuple("Watch", "parent room front")

# a session between two steps: its number, its working set, the front of each mount that it fetched, s, and what it
# watches
Session = collections.namedtuple("Session", "number working fronts told watch", defaults=({}, {}, 0, None))


class Judge:
    """The definitions of steps, over a store and a history."""

    def __init__(self, store, history):
        self.store, self.history = store, history

    def bad(self, parent):
        """Why a get is refused, or None."""
        return next((self.store.bad[m] for m in self.store.involved(parent) if m in self.store.bad), None)

    def got(self, parent, procs, front):
        keys = {}
        for mount in self.store.involved(parent):
            keys.update(self.history.owned(mount, front))
        if self.store.in_proc(parent):
            keys.update(procs)
        return keys

    def fetched(self, session, parent, procs, front):
        """A session after a get."""
        fronts = {**session.fronts, **{m: front for m in self.store.involved(parent)}}
        return session._replace(working=self.got(parent, procs, front), fronts=fronts, told=front)

    def seen(self, session, mount):
        """What a session keeps of a mount: what the mount had at its front; and of a mount by key with what the session
        itself has stored since."""
        front = session.fronts[mount]
        keys = self.history.owned(mount, front)
        if self.store.by_key[mount]:
            for _, commit in self.history.after(mount, front, session.told):
                if commit.session == session.number:
                    keys, _ = changed(keys, 0, self.history.changes(mount, commit))
        return keys

    def wanted(self, session, parent):
        """The mounts that a set touches, with its changes; how many keys it leaves aside; what it wants for each."""
        involved = self.store.involved(parent)
        wants, aside = {m: {} for m in involved}, 0
        for name, entry in session.working.items():
            mount = self.store.owner(name)
            if mount in wants:
                wants[mount][name] = entry
            else:
                aside += 1
        touched, changes = [], []
        for mount in involved:
            kept = self.seen(session, mount)
            if kept != wants[mount]:
                touched.append(mount)
                changes += differing(kept, wants[mount])
        return Wanted(touched, sorted(changes), aside, wants)

    def unfetched(self, session, parent):
        mounts = (m for m in self.store.involved(parent) if m not in session.fronts)
        return next((f"C01320 not-fetched {shown(self.store.points[m])}" for m in mounts), None)

    def long_text(self, session, parent):
        involved = self.store.involved(parent)
        for name, (value, meta) in sorted(session.working.items()):
            if self.store.owner(name) in involved:
                for text in (value, *(it for _, it in meta)):
                    if len(text) > LONGEST_TEXT // 4 and size(text) > LONGEST_TEXT:
                        return f"C01100 value-too-long {shown(name)} {size(text)}"
        return None

    def unfiled(self, wanted):
        """What a file can't hold: it is too heavy, its format can't, or its text is too long; in this order."""
        store, points = self.store, [shown(it) for it in self.store.points]
        for mount in wanted.touched:
            heavy = weight(store.filed(mount, wanted.wants[mount]))
            if heavy > HEAVIEST_MAP:
                return f"C01100 file-too-large {points[mount]} {heavy}"
        texts = {}
        for mount in wanted.touched:
            try:
                texts[mount] = store.text(mount, wanted.wants[mount])
            except NotStorable as why:
                key = joined(store.points[mount], why.args[0])
                return f"C03200 not-storable {points[mount]} {shown(key)}"
        for mount, text in texts.items():
            if len(text) > LONGEST_FILE:
                return f"C01100 file-too-large {points[mount]} {len(text)}"
        return None

    def bad_table(self, wanted):
        elektra = self.store.points.index(ELEKTRA)
        fault = table_of(wanted.wants[elektra])[1] if elektra in wanted.touched else None
        return fault and f"C03200 bad-table {fault}"

    def early(self, session, parent):
        """What a set is refused with before the history is asked, or what it wants."""
        refusal = self.unfetched(session, parent) or self.long_text(session, parent)
        if refusal:
            return refusal, None
        wanted = self.wanted(session, parent)
        return self.unfiled(wanted) or self.bad_table(wanted), wanted

    def invalid(self, wanted, front):
        """The first key of a touched mount that would break a rule, or None."""
        keys = {}
        for mount in range(len(self.store.mounts)):
            keys.update(self.history.owned(mount, front))
        keys, _ = changed(keys, 0, wanted.changes)
        specified = Specified(keys)
        for name in sorted(it for it in keys if self.store.owner(it) in wanted.touched and it[0] not in (0, 1)):
            breach = broken(*specified.at(name))
            if breach:
                return f"C03200 invalid {shown(name)} rule {breach[0]} given {quoted(breach[1])}"
        return None

    def behind(self, mount, wanted, front):
        """What a mount owns behind a set of so many commits."""
        own = [it for it in wanted.changes if self.store.owner(it[0]) == mount]
        return changed(self.history.owned(mount, front), 0, own)[0]

    def oversize(self, wanted, front):
        """The first touched mount by key whose file would be too large with what others have stored there, or None."""
        for mount in wanted.touched:
            if self.store.by_key[mount]:
                keys, point = self.behind(mount, wanted, front), shown(self.store.points[mount])
                heavy = weight(self.store.filed(mount, keys))
                size_of = heavy if heavy > HEAVIEST_MAP else len(self.store.text(mount, keys))
                if heavy > HEAVIEST_MAP or size_of > LONGEST_FILE:
                    return f"C01100 file-too-large {point} {size_of}"
        return None

    def full(self, wanted, commit, front):
        heavy = 0
        for mount in range(len(self.store.mounts)):
            keys, now = self.history.owned(mount, front), self.history.weighed(mount, front)
            own = [it for it in wanted.changes if self.store.owner(it[0]) == mount]
            heavy += changed(keys, now, own)[1] if own else now
        if heavy > HEAVIEST_MAP:
            return f"C01100 database-full {heavy}"
        heavy = self.history.weights[front] + weight_of_commit(commit)
        return f"C01100 history-full {heavy}" if heavy > HEAVIEST_HISTORY else None

    def blocks(self, session, wanted, mount, commit):
        """Whether a commit that touches a mount, behind a session's front of it, is in the way of a set there: any such
        one; of a mount by key one of another session that changes a key which the set changes there."""
        if not self.store.by_key[mount]:
            return True
        names = {name for name, _ in wanted.changes if self.store.owner(name) == mount}
        return commit.session != session.number and any(name in names for name, _ in commit.changes)

    def blocking(self, session, wanted, mount, front):
        """The number of the first commit in the way of a set at a mount, among the first so many; or None."""
        later = self.history.after(mount, session.fronts[mount], front)
        return next((number for number, it in later if self.blocks(session, wanted, mount, it)), None)

    def verdict(self, number, session, wanted, front):
        """The line of what becomes of a set behind so many commits, and the commit, if it is one."""
        if not wanted.touched:
            return f"same {front} aside {wanted.aside}", None
        for mount in wanted.touched:
            by = self.blocking(session, wanted, mount, front)
            if by:
                return f"conflict {shown(self.store.points[mount])} by {by} front {front}", None
        commit = Commit(number, wanted.touched, wanted.changes)
        refusal = self.oversize(wanted, front) or self.invalid(wanted, front) or self.full(wanted, commit, front)
        if refusal:
            return f"refused {refusal} front {front}", None
        return f"commit {front + 1} aside {wanted.aside}", commit

    def stored(self, session, commit, number):
        """A session whose set became a commit: the front of a mount by key stays."""
        moved = {m: number for m in commit.touched if not self.store.by_key[m]}
        return session._replace(fronts={**session.fronts, **moved}, told=number)

    def remade(self, session, parent, strategy, front):
        """A session behind a conflict that has got the parent, with what it is to try next; and the names in conflict.
        The base is what its record kept before that get. What no involved mount owns stays as it was."""
        ours, aside = self.parted(session.working, parent)
        fetched = self.fetched(session, parent, {}, front)
        keys, names = merged(self.kept(session, parent), ours, fetched.working, strategy)
        return fetched._replace(working={**aside, **keys}), names

    def watched(self, session, step, front):
        """A session that watches from a front on. What it watched before is forgotten."""
        return session._replace(told=front, watch=Watch(step.name, step.room, front))

    def polled(self, session, front):
        """The lines of a poll that has looked at so many commits, and the session behind it."""
        heard = []
        for number in range(session.watch.front + 1, front + 1):
            for name, entry in self.history.commits[number - 1].changes:
                if hears(session.watch.parent, name):
                    heard.append(f"~ {number} {'+' if entry else '-'} {shown(name)}")
        missed = max(0, len(heard) - session.watch.room)
        return [f"news {front} missed {missed}", *heard[missed:]], session._replace(
            told=front, watch=session.watch._replace(front=front))

    def barred(self, number, front):
        """Why a commit can't be taken back behind so many commits, before its set; or None."""
        if not 1 <= number <= front:
            return f"C01320 no-commit {number} front {front}"
        commit = self.history.commits[number - 1]
        names = {name for name, _ in commit.changes}
        for by in range(number + 1, front + 1):
            name = next((name for name, _ in self.history.commits[by - 1].changes if name in names), None)
            if name:
                return f"C02000 overtaken {shown(name)} by {by} front {front}"
        return self.bad(self.parent_over(commit.touched))

    def parent_over(self, touched):
        """What is got to take back a commit of these mounts: all keys, or those of the one."""
        return self.store.points[touched[0]] if len(touched) == 1 else (CASCADING, ())

    def taken_back(self, session, number, procs, front):
        """A session that has got what it takes to take a commit back; one that has made that; and the parent."""
        commit = self.history.commits[number - 1]
        parent = self.parent_over(commit.touched)
        got = self.fetched(session, parent, procs, front)
        keys = dict(got.working)
        for name, _ in commit.changes:
            keys.pop(name, None)
            entry = self.history.owned(self.store.owner(name), number - 1).get(name)
            keys.update({name: entry} if entry else {})
        return got, got._replace(working=keys), parent

    def kept(self, session, parent):
        """What a session's record keeps of the mounts that a parent involves."""
        keys = {}
        for mount in self.store.involved(parent):
            keys.update(self.seen(session, mount))
        return keys

    def parted(self, keys, parent):
        """The keys that the involved mounts own, and the others."""
        involved, ours, aside = set(self.store.involved(parent)), {}, {}
        for name, entry in keys.items():
            (ours if self.store.owner(name) in involved else aside)[name] = entry
        return ours, aside


def merged(base, ours, theirs, strategy):
    """Keys of two sides that began from a base; and, where the strategy is to abort, the names in conflict."""
    keys, names = {}, []
    for name in sorted({*base, *ours, *theirs}):
        before, our, their = base.get(name), ours.get(name), theirs.get(name)
        entry = their if our == before else our
        if our != before and their not in (before, our):
            names.append(name)
            entry = their if strategy == "their" else our
        if entry is not None:
            keys[name] = entry
    return keys, names if strategy == "abort" else []


def hears(parent, name):
    """Whether a name is that of a parent or below it; one without a namespace is that of its path in each of them."""
    return is_below_or_same(name, parent if parent[0] != CASCADING else (name[0], parent[1]))


def edited(keys, step):
    """A working set after an edit."""
    if step.word == "cut":
        return {name: entry for name, entry in keys.items() if not is_below_or_same(name, step.name)}
    keys = dict(keys)
    entry = keys.pop(step.name, None)
    if step.word == "put":
        keys[step.name] = with_value(entry, step.value)
    if step.word == "meta":
        keys[step.name] = with_meta(entry, step.meta, step.value)
    return keys


def looked_up(keys, name):
    found = Specified(keys).found(name)
    return f"found {shown(found[0])} {quoted(found[1])}" if found else "none"
