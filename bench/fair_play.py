"""A store that plays scripts, to try bench/fair.py: one turn after the other, in any order that the phases allow.
"""
import re

from fair_judge import DISK_FAULT, Text
from fair_keys import shown
from fair_steps import EDITS, History, Judge, Session, edited, looked_up


class Play:
    """A run of a script in an order that numbers decide. Some sets fail for the disk, if that is asked for."""

    def __init__(self, script, store, chance, fails=0):
        self.script, self.store, self.chance, self.fails = script, store, chance, fails
        self.history = History(store)
        self.judge = Judge(store, self.history)
        # for each mount that a commit touched what its file holds
        self.filed = {}
        self.states = {session: Session(session) for session in script.sessions}

    def text(self):
        replies = []
        for phase in self.script.phases:
            lines = {session: [] for session in phase}
            left = {session: self.turns(session, steps, lines[session]) for session, steps in phase.items()}
            while left:
                session = self.chance.choice(list(left))
                if not next(left[session], False):
                    del left[session]
            replies.append(lines)
        return Text(replies, self.history.commits)

    def turns(self, number, steps, lines):
        """Takes the steps of a session, a turn at a time, and adds the lines of their replies."""
        for step in steps:
            if step.word == "merge":
                yield from self.merge(number, step, lines)
            elif step.word == "poll":
                lines += self.poll(number)
            else:
                line = self.step(number, step)
                lines += [line] if line else []
            yield True

    def step(self, number, step):
        state, front = self.states[number], len(self.history)
        if step.word in EDITS:
            self.states[number] = state._replace(working=edited(state.working, step))
            return None
        if step.word == "look":
            return looked_up(state.working, step.name)
        if step.word == "get":
            bad = self.judge.bad(step.name)
            if bad:
                return f"refused {bad}"
            self.states[number] = self.judge.fetched(state, step.name, self.script.procs.get(number, {}), front)
            return f"got {front} {len(self.states[number].working)}"
        if step.word == "watch":
            return self.watch(number, step)
        if step.word == "undo":
            return self.undo(number, step)
        return self.set(number, state, step.name, front)

    def watch(self, number, step):
        front = len(self.history)
        self.states[number] = self.judge.watched(self.states[number], step, front)
        return f"watch {front}"

    def poll(self, number):
        """The lines of a poll."""
        if not self.states[number].watch:
            return ["no-watch"]
        lines, self.states[number] = self.judge.polled(self.states[number], len(self.history))
        return lines

    def undo(self, number, step):
        """Takes a commit back. What its get gave stays where its set is refused."""
        state, front = self.states[number], len(self.history)
        refusal = self.judge.barred(step.number, front)
        if refusal:
            self.states[number] = state._replace(told=front)
            return f"refused {refusal}"
        procs = self.script.procs.get(number, {})
        got, back, parent = self.judge.taken_back(state, step.number, procs, front)
        line = self.set(number, back, parent, front)
        if not line.startswith("commit "):
            self.states[number] = got
        return line

    def set(self, number, state, parent, front):
        refusal, wanted = self.judge.early(state, parent)
        if refusal:
            return f"refused {refusal}"
        line, commit = self.judge.verdict(number, state, wanted, front)
        self.states[number] = state._replace(told=front)
        if commit and self.chance.random() < self.fails:
            return f"refused {DISK_FAULT} front {front}"
        if commit:
            self.filed.update({m: self.written(m, wanted, front) for m in commit.touched})
            self.history.push(commit)
            self.states[number] = self.judge.stored(state, commit, front + 1)
        return line

    def written(self, mount, wanted, front):
        """The keys that the file of a mount is written of, behind a set of so many commits."""
        return self.judge.behind(mount, wanted, front)

    def files(self):
        """What the files hold behind the run."""
        texts = {self.store.mounts[m][1]: self.store.text(m, keys) for m, keys in self.filed.items()}
        return {**self.store.files, **texts}

    def merge(self, number, step, lines):
        """Makes the tries of a merge, with a turn for each set and for each get."""
        working = ours = self.states[number].working
        for left in reversed(range(step.tries)):
            line = self.set(number, self.holding(number, ours), step.name, len(self.history))
            is_met = line.startswith("conflict ")
            if is_met or line.startswith("refused "):
                self.states[number] = self.holding(number, working)
            if not is_met or not left:
                lines.append(re.sub("^conflict ", "spent ", line))
                return
            yield True
            ours, names = self.again(number, step, ours, lines, re.sub("^conflict ", "tried ", line))
            if names:
                lines.append(" ".join(["merge-conflict", *map(shown, names)]))
                return
            yield True

    def again(self, number, step, ours, lines, tried):
        """Gets behind a conflict, and gives what is to be tried next, and the names in conflict."""
        front = len(self.history)
        state, names = self.judge.remade(self.holding(number, ours), step.name, step.strategy, front)
        self.states[number] = state._replace(working=self.states[number].working)
        lines.append(f"{tried} again {front}")
        return state.working, names

    def holding(self, number, keys):
        """A session with another working set."""
        return self.states[number]._replace(working=keys)
