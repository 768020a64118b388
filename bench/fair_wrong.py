"""Stores that merge, watch, take back or count conflicts by key in a wrong way, for bench/fair.py selftest: what each of
them prints of made-up scripts, or leaves in the files, has to be refused. Each gets one thing wrong.
"""
import random
import re

from fair_files import Store
from fair_judge import Trial, Unfair, rendered, text_of
from fair_keys import CASCADING, USER
from fair_play import Play
from fair_scripts import Making, files_of, script_of
from fair_steps import Judge, merged

SCRIPTS = 120


class Remaking(Play):
    """One that makes the keys to be tried next in another way."""

    def again(self, number, step, ours, lines, tried):
        old, state = self.states[number], self.holding(number, ours)
        keys, names = super().again(number, step, ours, lines, tried)
        mine, aside = self.judge.parted(ours, step.name)
        there = self.judge.got(step.name, {}, len(self.history))
        made = self.made(number, step, old, self.judge.kept(state, step.name), mine, there, aside)
        return (made, []) if made is not None else (keys, names)

    def made(self, number, step, old, base, ours, theirs, aside):
        return None


class Exchanges(Remaking):
    """The base and theirs are exchanged."""

    def made(self, number, step, old, base, ours, theirs, aside):
        return {**aside, **merged(theirs, ours, base, "our")[0]} if step.strategy != "abort" else None


class HasNoBase(Remaking):
    """The base is the empty set."""

    def made(self, number, step, old, base, ours, theirs, aside):
        keys, names = merged({}, ours, theirs, step.strategy)
        return None if names else {**aside, **keys}


class KeepsOurs(Remaking):
    """What was tried is tried again."""

    def made(self, number, step, old, base, ours, theirs, aside):
        return {**aside, **ours}


class TakesTheirs(Remaking):
    """What is there is tried."""

    def made(self, number, step, old, base, ours, theirs, aside):
        return {**aside, **theirs}


class DropsAside(Remaking):
    """What no involved mount owns is dropped."""

    def made(self, number, step, old, base, ours, theirs, aside):
        keys, names = merged(base, ours, theirs, step.strategy)
        return None if names else keys


class GetsProc(Remaking):
    """The keys in `proc` of a get come in, too."""

    def made(self, number, step, old, base, ours, theirs, aside):
        keys, names = merged(base, ours, theirs, step.strategy)
        procs = self.script.procs.get(number, {}) if self.store.in_proc(step.name) else {}
        return None if names else {**aside, **keys, **procs}


class NeverAborts(Remaking):
    """Under abort ours counts, without a word."""

    def made(self, number, step, old, base, ours, theirs, aside):
        return {**aside, **merged(base, ours, theirs, "our")[0]} if step.strategy == "abort" else None


class Removes(Remaking):
    """Our removal of what they changed is no conflict."""

    def made(self, number, step, old, base, ours, theirs, aside):
        gone = {name for name in base if name not in ours}
        keys, names = merged(base, ours, theirs, "abort")
        is_other = step.strategy == "their" or set(names) - gone
        return None if is_other else {**aside, **keys}


class MergesFiles(Remaking):
    """A mount's keys are theirs, or ours where they changed none of them."""

    def made(self, number, step, old, base, ours, theirs, aside):
        keys = {}
        for mount in self.store.involved(step.name):
            own = [{name: it for name, it in side.items() if self.store.owner(name) == mount}
                   for side in (base, ours, theirs)]
            keys.update(own[1] if own[0] == own[2] else own[2])
        return {**aside, **keys}


class ForgetsItsGet(Play):
    """The record stays as it was before the get."""

    def again(self, number, step, ours, lines, tried):
        fronts = self.states[number].fronts
        made = super().again(number, step, ours, lines, tried)
        self.states[number] = self.states[number]._replace(fronts=fronts)
        return made

    def merge(self, number, step, lines):
        yield from super().merge(number, step._replace(tries=min(step.tries, 3)), lines)


class TellsNoTry(Play):
    """A try is not told."""

    def again(self, number, step, ours, lines, tried):
        made = super().again(number, step, ours, lines, tried)
        lines.pop()
        return made


class WorksOn(Play):
    """The working set becomes what was tried last, though it isn't stored."""

    def __init__(self, *given):
        super().__init__(*given)
        self.last = {}

    def again(self, number, step, ours, lines, tried):
        made = super().again(number, step, ours, lines, tried)
        self.last[number] = made[0]
        return made

    def merge(self, number, step, lines):
        begun = len(lines)
        yield from super().merge(number, step, lines)
        if len(lines) > begun + 1 and not lines[-1].startswith(("commit ", "same ")):
            self.states[number] = self.holding(number, self.last[number])


class StoresAlone(Play):
    """The working set stays though it was stored."""

    def merge(self, number, step, lines):
        working = self.states[number].working
        yield from super().merge(number, step, lines)
        self.states[number] = self.holding(number, working)


class TriesOnce(Play):
    """It tries once more than it may."""

    def merge(self, number, step, lines):
        yield from super().merge(number, step._replace(tries=step.tries + 1), lines)


class GivesUp(Play):
    """It tries once less than it may, where that is more than once."""

    def merge(self, number, step, lines):
        yield from super().merge(number, step._replace(tries=max(1, step.tries - 1)), lines)


class StaysAtItsFront(Play):
    """A poll tells again what the one before it told."""

    def poll(self, number):
        watch = self.states[number].watch
        lines = super().poll(number)
        self.states[number] = self.states[number]._replace(watch=watch)
        return lines


class KeepsTheFirst(Play):
    """The first changes are kept, and the last ones left out."""

    def poll(self, number):
        watch = self.states[number].watch
        lines = super().poll(number)
        if not watch or lines[0].endswith(" missed 0"):
            return lines
        whole, _ = self.judge.polled(self.states[number]._replace(watch=watch._replace(room=4096)), len(self.history))
        return [lines[0], *whole[1 : len(lines)]]


class CountsNothing(Play):
    """What is left out is not counted."""

    def poll(self, number):
        lines = super().poll(number)
        return [re.sub("missed .*", "missed 0", lines[0]), *lines[1:]]


class IsDeafToItself(Play):
    """A session isn't told of its own commits."""

    def poll(self, number):
        own = {str(n) for n, commit in enumerate(self.history.commits, 1) if commit.session == number}
        return [line for line in super().poll(number) if not line.startswith("~") or line.split(" ")[1] not in own]


class HearsAll(Play):
    """Every change is told, also one of another parent's keys."""

    def watch(self, number, step):
        return super().watch(number, step._replace(name=(CASCADING, ())))


class HearsOneSpace(Play):
    """A cascading parent is that of one namespace."""

    def watch(self, number, step):
        return super().watch(number, step._replace(name=(step.name[0] or USER, step.name[1])))


class KeepsItsWatch(Play):
    """A second watch doesn't take the place of the first."""

    def watch(self, number, step):
        watch = self.states[number].watch
        line = super().watch(number, step)
        self.states[number] = self.states[number]._replace(watch=watch or self.states[number].watch)
        return line


class TellsKeysAlone(Play):
    """What was removed is not told."""

    def poll(self, number):
        return [line for line in super().poll(number) if not re.match("~ [0-9]+ - ", line)]


class Backwards(Play):
    """One that takes commits back in another way."""

    def __init__(self, *given):
        super().__init__(*given)
        self.judge.barred, self.judge.taken_back = self.barred, self.taken_back

    def barred(self, number, front):
        return Judge.barred(self.judge, number, front)

    def taken_back(self, session, number, procs, front):
        return Judge.taken_back(self.judge, session, number, procs, front)


class IsNotOvertaken(Backwards):
    """A later commit is in nobody's way."""

    def barred(self, number, front):
        why = super().barred(number, front)
        return None if why and " overtaken " in why else why


class TellsTheLastOvertaking(Backwards):
    """The last commit that overtakes is told, and not the first."""

    def barred(self, number, front):
        why = super().barred(number, front)
        if not why or " overtaken " not in why:
            return why
        names = {name for name, _ in self.history.commits[number - 1].changes}
        later = enumerate(self.history.commits[number:front], number + 1)
        by = max(n for n, commit in later if names & {*dict(commit.changes)})
        return re.sub(" by [0-9]+ ", f" by {by} ", why)


class RemovesAll(Backwards):
    """What a commit changed is removed."""

    def taken_back(self, session, number, procs, front):
        got, back, parent = super().taken_back(session, number, procs, front)
        gone = dict(self.history.commits[number - 1].changes)
        return got, back._replace(working={n: it for n, it in got.working.items() if n not in gone}), parent


class GoesBackToTheStart(Backwards):
    """Each name gets what the opening found."""

    def taken_back(self, session, number, procs, front):
        got, back, parent = super().taken_back(session, number, procs, front)
        keys = dict(got.working)
        for name, _ in self.history.commits[number - 1].changes:
            keys.pop(name, None)
            entry = self.history.owned(self.store.owner(name), 0).get(name)
            keys.update({name: entry} if entry else {})
        return got, back._replace(working=keys), parent


class GetsAll(Backwards):
    """All keys are got for a commit of one mount, too."""

    def taken_back(self, session, number, procs, front):
        self.judge.parent_over = lambda touched: (CASCADING, ())
        made = super().taken_back(session, number, procs, front)
        del self.judge.parent_over
        return made


class WorksBehind(Play):
    """The working set stays when a commit is taken back."""

    def undo(self, number, step):
        working = self.states[number].working
        line = super().undo(number, step)
        self.states[number] = self.holding(number, working)
        return line


class UndoesItsEdits(Backwards):
    """The commit is taken back in the working set, and not in what is there."""

    def taken_back(self, session, number, procs, front):
        got, back, parent = super().taken_back(session, number, procs, front)
        changes = {name: back.working.get(name) for name, _ in self.history.commits[number - 1].changes}
        keys = {name: entry for name, entry in {**session.working, **changes}.items() if entry}
        return got, back._replace(working=keys), parent


class NumbersFromZero(Play):
    """The commit behind the one that is named is taken back."""

    def undo(self, number, step):
        return super().undo(number, step._replace(number=step.number + 1))


class Counting(Play):
    """One that counts conflicts by key in another way."""

    def __init__(self, *given):
        super().__init__(*given)
        for word in ("blocks", "seen", "stored"):
            setattr(self.judge, word, getattr(self, word))

    def blocks(self, session, wanted, mount, commit):
        return Judge.blocks(self.judge, session, wanted, mount, commit)

    def seen(self, session, mount):
        return Judge.seen(self.judge, session, mount)

    def stored(self, session, commit, number):
        return Judge.stored(self.judge, session, commit, number)


class LetsAnOwnCommitBlock(Counting):
    """An own commit of the same key blocks."""

    def blocks(self, session, wanted, mount, commit):
        return super().blocks(session._replace(number=None), wanted, mount, commit)


class LetsAnotherKeyBlock(Counting):
    """A change of any key blocks."""

    def blocks(self, session, wanted, mount, commit):
        return commit.session != session.number


class LetsTheSameKeyPass(Counting):
    """Nothing blocks at a mount by key."""

    def blocks(self, session, wanted, mount, commit):
        return not self.store.by_key[mount] and super().blocks(session, wanted, mount, commit)


class LetsTheSameValuePass(Counting):
    """A change to what the set wants doesn't block."""

    def blocks(self, session, wanted, mount, commit):
        other = [it for it in commit.changes if it not in wanted.changes]
        return super().blocks(session, wanted, mount, commit._replace(changes=other))


class LooksAtOtherMounts(Counting):
    """A change of another mount's key that the set changes blocks, too."""

    def blocks(self, session, wanted, mount, commit):
        if not self.store.by_key[mount]:
            return True
        names = {name for name, _ in wanted.changes}
        return commit.session != session.number and any(name in names for name, _ in commit.changes)


class MovesTheFront(Counting):
    """A commit moves the front of a mount by key."""

    def stored(self, session, commit, number):
        return session._replace(fronts={**session.fronts, **{m: number for m in commit.touched}}, told=number)


class ForgetsItsOwn(Counting):
    """What a session keeps of a mount is what it got, without what it has stored since."""

    def seen(self, session, mount):
        return self.history.owned(mount, session.fronts[mount])


class KeepsWhatIsThere(Counting):
    """What a session keeps of a mount by key has in it what others stored before its own commit."""

    def seen(self, session, mount):
        return self.history.owned(mount, session.told if self.store.by_key[mount] else session.fronts[mount])


class WritesTheOldText(Play):
    """The file of a mount by key has what the set wanted, without what others stored there."""

    def written(self, mount, wanted, front):
        return wanted.wants[mount]


class CountsAllByBackend(Play):
    """The way to count is not looked at."""

    def __init__(self, script, store, *given):
        super().__init__(script, store, *given)
        store.by_key = [False] * len(store.mounts)


WRONG = [Exchanges, HasNoBase, KeepsOurs, TakesTheirs, DropsAside, GetsProc, NeverAborts, Removes, MergesFiles,
         ForgetsItsGet, TellsNoTry, WorksOn, StoresAlone, TriesOnce, GivesUp, StaysAtItsFront, KeepsTheFirst,
         CountsNothing, IsDeafToItself, HearsAll, HearsOneSpace, KeepsItsWatch, TellsKeysAlone,
         IsNotOvertaken, TellsTheLastOvertaking, RemovesAll, GoesBackToTheStart, GetsAll, WorksBehind,
         UndoesItsEdits, NumbersFromZero, LetsAnOwnCommitBlock, LetsAnotherKeyBlock, LetsTheSameKeyPass,
         LetsTheSameValuePass, LooksAtOtherMounts, MovesTheFront, ForgetsItsOwn, KeepsWhatIsThere, WritesTheOldText,
         CountsAllByBackend]


def is_refused(kind, seed):
    """Whether a text is refused that a store prints of a made-up script, or the files that it leaves."""
    files = files_of(seed)
    script = script_of(Making(seed, most=300).script(sessions=8, phases=2))
    play = kind(script, Store(files), random.Random(seed))
    trial = Trial(script, Store(files), None)
    try:
        trial.text = text_of(rendered(script, play.text(), play.store.points).encode(), script, trial.store)
        trial.all()
        trial.hold(play.files(), False)
    except Unfair:
        return True
    return False


def told_wrong():
    """How many stores there are, and those whose texts are all taken as fair."""
    wrong = [it for it in WRONG if not any(is_refused(it, seed) for seed in range(SCRIPTS))]
    return len(WRONG), [f"a store is taken as fair: {it.__doc__}" for it in wrong]
