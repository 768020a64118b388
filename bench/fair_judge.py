"""Whether a printed text is one that the definitions of a batch allow.
"""
import collections
import re

from fair_files import NotOpened, Store, is_left_open, outcomes
from fair_keys import Beyond, name_of, plain, quoted, shown, unquoted_at, with_meta
from fair_scripts import BadScript, script_of
from fair_steps import EDITS, Commit, History, Judge, Session, edited, looked_up


class Unfair(Exception):
    """What a text says that no fair one says: the rule that it breaks, and where."""

    def __init__(self, rule, why):
        super().__init__(f"{rule}: {why}")
        self.rule = rule


# ---- the printed text

Text = collections.namedtuple("Text", "replies commits")


def rendered(script, text, points):
    """The whole printed text."""
    lines = []
    for number, phase in enumerate(script.phases, 1):
        lines.append(f"phase {number}")
        for session in sorted(phase):
            lines += [f"session {session}", *text.replies[number - 1][session]]
    lines.append(f"history {len(text.commits)}")
    for number, commit in enumerate(text.commits, 1):
        lines += [f"commit {number} by {commit.session}", *lines_of_commit(commit, points)]
    return "".join(f"{line}\n" for line in [*lines, "end"])


def lines_of_commit(commit, points):
    lines = ["touched" + "".join(f" {shown(points[m])}" for m in commit.touched)]
    for name, entry in commit.changes:
        if entry is None:
            lines.append(f"- {shown(name)}")
        else:
            lines.append(f"+ {shown(name)} {quoted(entry[0])}")
            lines += [f". {quoted(meta)} {quoted(said)}" for meta, said in entry[1]]
    return lines


class Lines:
    """The lines of a printed text, one after the other."""

    def __init__(self, data):
        try:
            text = data.decode()
        except UnicodeDecodeError:
            raise Unfair("text", "it is not UTF-8") from None
        if not text.endswith("\n"):
            raise Unfair("text", "its last line has no end")
        self.lines, self.at = text[:-1].split("\n"), 0

    def next(self):
        self.at += 1
        if self.at > len(self.lines):
            raise Unfair("text", "it ends too early")
        return self.lines[self.at - 1]

    def want(self, line):
        if self.next() != line:
            raise Unfair("text", f"line {self.at}: {self.lines[self.at - 1]!r} where {line!r} is wanted")

    def match(self, pattern):
        line = self.next()
        found = re.fullmatch(pattern, line)
        if not found:
            raise Unfair("text", f"line {self.at}: {line!r} doesn't stand there")
        return found

    def until(self, *begins):
        """The lines up to the first that begins so."""
        first = self.at
        while self.at < len(self.lines) and not self.lines[self.at].startswith(begins):
            self.at += 1
        return self.lines[first : self.at]


NUMBER = "(0|[1-9][0-9]*)"


def shown_words(line, at):
    """The words of a line from a place on, each shown or quoted."""
    words = []
    while at < len(line):
        if line[at] != " ":
            raise Unfair("text", f"{line!r} has no blank at {at}")
        at += 1
        found = unquoted_at(line, at)
        if line[at : at + 1] == '"' and not found:
            raise Unfair("text", f"{line!r} has no text at {at}")
        if not found:
            word = line[at:].split(" ", 1)[0]
            found = word, at + len(word)
        words.append(found[0])
        at = found[1]
    return words


def change_of(line, is_new):
    words = shown_words(line, 1)
    name = name_of(words[0]) if len(words) == (2 if is_new else 1) else None
    if not name:
        raise Unfair("text", f"{line!r} is no change")
    return name, plain(words[1]) if is_new else None


def commit_in(lines, number, points):
    """The next commit of a text, its lines as they stand."""
    session = int(lines.match(f"commit {number} by {NUMBER}")[1])
    line = lines.next()
    touched = [points.get(name_of(it)) for it in shown_words(line, 7)] if line.startswith("touched") else []
    if not touched or None in touched:
        raise Unfair("text", f"{line!r} tells no mounts")
    changes = []
    for line in lines.until("commit ", "end"):
        if line.startswith("+ ") or line.startswith("- "):
            changes.append(change_of(line, line[0] == "+"))
        elif line.startswith(". ") and changes and changes[-1][1]:
            words = shown_words(line, 1)
            if len(words) != 2:
                raise Unfair("text", f"{line!r} is no metadata")
            changes[-1] = changes[-1][0], with_meta(changes[-1][1], *words)
        else:
            raise Unfair("text", f"{line!r} is no change")
    return Commit(session, touched, changes)


def text_of(data, script, store):
    """A printed text: the replies by phase and session, and the commits."""
    lines, replies, points = Lines(data), [], {point: m for m, point in enumerate(store.points)}
    for number, phase in enumerate(script.phases, 1):
        lines.want(f"phase {number}")
        replies.append({})
        for session in sorted(phase):
            lines.want(f"session {session}")
            replies[-1][session] = lines.until("session ", "phase ", "history ")
    count = int(lines.match(f"history {NUMBER}")[1])
    commits = [commit_in(lines, number, points) for number in range(1, count + 1)]
    lines.want("end")
    if lines.at < len(lines.lines):
        raise Unfair("text", f"line {lines.at + 1} stands behind the end")
    text = Text(replies, commits)
    if rendered(script, text, store.points).encode() != data:
        raise Unfair("text", "a name or a text is not printed as it should be")
    return text


# ---- judging

FRONT = re.compile(rf"(?:got|same|news) {NUMBER} |(?:conflict|refused|spent) .* front {NUMBER}$|watch {NUMBER}$")
COMMITTED = re.compile(rf"commit {NUMBER} aside {NUMBER}$")
TRIED = re.compile(rf"tried (.*) by {NUMBER} front {NUMBER} again {NUMBER}$")
SPENT = re.compile(rf"spent (.*) by {NUMBER} front {NUMBER}$")
DISK_FAULT = "C01100 disk-fault"


def front_of(line):
    """The front that a reply tells, or None."""
    committed = COMMITTED.match(line)
    if committed:
        return int(committed[1]) - 1
    found = FRONT.match(line)
    return found and int(found[1] or found[2] or found[3])


class Trial:
    """The judging of one text."""

    def __init__(self, script, store, text):
        self.script, self.store, self.text = script, store, text
        self.history, self.judge = History(store), None
        self.counts, self.failed = collections.Counter(), []

    def replay(self):
        """The printed commits, each by a session of the script and of mounts that own its names."""
        for number, commit in enumerate(self.text.commits, 1):
            if commit.session not in self.script.sessions:
                raise Unfair("own", f"commit {number} is by no session")
            if any(self.store.owner(name) not in commit.touched for name, _ in commit.changes):
                raise Unfair("history", f"commit {number} changes a key that no touched mount owns")
            self.history.push(commit)
        self.judge = Judge(self.store, self.history)

    def told(self, session):
        """The numbers of the commits that the replies of a session tell."""
        lines = (line for phase in self.text.replies for line in phase.get(session, []))
        return [int(it[1]) for it in map(COMMITTED.match, lines) if it]

    def own(self):
        for session in self.script.sessions:
            made = [n for n, commit in enumerate(self.text.commits, 1) if commit.session == session]
            if made != self.told(session):
                raise Unfair("own", f"session {session} made {made} and tells {self.told(session)}")

    def all(self):
        self.replay()
        self.own()
        states = {session: Session(session) for session in self.script.sessions}
        made = 0
        for number, phase in enumerate(self.script.phases):
            floor = made
            made += sum(1 for lines in self.text.replies[number].values() for line in lines if COMMITTED.match(line))
            for session, steps in phase.items():
                replies = self.text.replies[number][session]
                states[session] = self.steps(number, session, states[session], steps, replies, (floor, made))
        return self.counts

    def steps(self, phase, number, state, steps, lines, made):
        """A session after its steps of a phase. An edit that found no memory tells so: then it is tried either way."""
        tries, why = [(0, 0, state)], None
        limit = 100_000 + 2 * len(steps)
        while tries and limit:
            at, line, state = tries.pop()
            try:
                while at < len(steps):
                    limit -= 1
                    step = steps[at]
                    at += 1
                    if step.word in EDITS:
                        if lines[line : line + 1] == ["memory"]:
                            tries.append((at, line + 1, state))
                        state = state._replace(working=edited(state.working, step))
                        continue
                    end = self.end_of(step, lines, line)
                    if step.word == "undo":
                        state, *others = self.undo(number, state, step, lines[line], made)
                        line = end + 1
                        tries += [(at, line, it) for it in reversed(others)]
                        continue
                    state = self.reply(number, state, step, lines[line : end + 1], made)
                    line = end + 1
                if line < len(lines):
                    raise Unfair("text", f"{lines[line]!r} answers no step")
                self.counts.update(line.split(" ")[0] for line in lines)
                return state
            except Unfair as it:
                why = why or Unfair(it.rule, f"phase {phase + 1}, session {number}, step {at} there: {it}")
        raise why or Beyond("too many edits without memory")

    def end_of(self, step, lines, line):
        """The place of the last line of a reply that begins at a place: only merges and polls have more than one."""
        while step.word == "merge" and lines[line : line + 1] and lines[line].startswith("tried "):
            line += 1
        if line == len(lines):
            raise Unfair("text", "a reply is missing")
        while step.word == "poll" and lines[line + 1 : line + 2] and lines[line + 1].startswith("~ "):
            line += 1
        return line

    def reply(self, number, state, step, lines, made):
        """A session after a step that has these lines. So many commits were made before its phase, and by its end."""
        if step.word == "merge":
            return self.merge(number, state, step, lines, made)
        if lines == ["memory"]:
            return state
        front = self.placed(front_of(lines[0]), state.told, lines[0], made)
        if step.word == "watch":
            return self.watch(state, step, lines[0], front)
        if step.word == "poll":
            return self.poll(state, lines, front)
        tell = {"get": self.get, "look": self.look, "set": self.set}[step.word]
        return tell(number, state, step.name, lines[0], front)

    def placed(self, front, told, line, made):
        """The front of a line, if it has one: where it may lie."""
        if front is not None:
            if not told <= front <= len(self.history):
                raise Unfair("front", f"{line!r} lies not between {told} and {len(self.history)}")
            if front < made[0]:
                raise Unfair("floor", f"{line!r} where earlier phases made {made[0]} commits")
            if front > made[1]:
                raise Unfair("ceiling", f"{line!r} where only {made[1]} commits were made by the end of the phase")
        return front

    def want(self, line, wanted, rule):
        if line != wanted:
            raise Unfair(rule, f"{line!r} where {wanted!r} is wanted")

    def get(self, number, state, parent, line, front):
        bad = self.judge.bad(parent)
        if bad:
            self.want(line, f"refused {bad}", "get")
            return state
        if front is None:
            raise Unfair("get", f"{line!r} is no answer to a get")
        state = self.judge.fetched(state, parent, self.script.procs.get(number, {}), front)
        self.want(line, f"got {front} {len(state.working)}", "get")
        return state

    def look(self, number, state, name, line, front):
        self.want(line, looked_up(state.working, name), "look")
        return state

    def set(self, number, state, parent, line, front):
        refusal, wanted = self.judge.early(state, parent)
        if refusal:
            self.want(line, f"refused {refusal}", "early")
            return state
        if front is None:
            raise Unfair("set", f"{line!r} where the set is judged by the history")
        verdict, commit = self.judge.verdict(number, state, wanted, front)
        if commit and line == f"refused {DISK_FAULT} front {front}":
            self.failed.append((front, wanted))
            return state._replace(told=front)
        self.want(line, verdict, "set")
        if not commit:
            return state._replace(told=front)
        if front >= len(self.history) or self.history.commits[front] != commit:
            raise Unfair("commit", f"commit {front + 1} of the history is not the one of session {number}")
        return self.judge.stored(state, commit, front + 1)

    # ---- what is taken back

    def undo(self, number, state, step, line, made):
        """What a session may be behind an undoing that has this line. One that tells no front is judged at each that it
        may have had."""
        if line == "memory":
            return [state]
        front = self.placed(front_of(line), state.told, line, made)
        least, most = max(state.told, made[0]), min(len(self.history), made[1])
        found, why = [], None
        for it in range(least, most + 1) if front is None else [front]:
            try:
                found.append(self.undone(number, state, step, line, it))
            except Unfair as one:
                why = why or one
        if not found:
            raise why
        return found

    def undone(self, number, state, step, line, front):
        refusal = self.judge.barred(step.number, front)
        if refusal:
            self.want(line, f"refused {refusal}", "undo")
            return state._replace(told=front)
        procs = self.script.procs.get(number, {})
        got, back, parent = self.judge.taken_back(state, step.number, procs, front)
        refusal, wanted = self.judge.early(back, parent)
        if refusal:
            self.want(line, f"refused {refusal}", "undo")
            return got
        verdict, commit = self.judge.verdict(number, back, wanted, front)
        if verdict.startswith(("same ", "conflict ")):
            raise Unfair("undo", f"{verdict!r} is no answer to an undoing")
        if commit and line == f"refused {DISK_FAULT} front {front}":
            self.failed.append((front, wanted))
            return got
        self.want(line, verdict, "undo")
        if not commit:
            return got
        if front >= len(self.history) or self.history.commits[front] != commit:
            raise Unfair("commit", f"commit {front + 1} of the history is not the one of session {number}")
        return self.judge.stored(back, commit, front + 1)

    # ---- watches

    def watch(self, state, step, line, front):
        self.want(line, f"watch {front}", "watch")
        return self.judge.watched(state, step, front)

    def poll(self, state, lines, front):
        """A session after a poll, which tells all changes since the watch began or was asked last, or the last of them
        and how many are left out."""
        if not state.watch:
            self.want(lines, ["no-watch"], "poll")
            return state
        if front is None:
            raise Unfair("poll", f"{lines[0]!r} is no answer to a poll")
        wanted, after = self.judge.polled(state, front)
        self.want(lines, wanted, "poll")
        return after

    # ---- merges

    def merge(self, number, state, step, lines, made):
        """A session after a merge: tries that each met a conflict, with the get behind it, and an end. What it tried
        stays where it was stored alone; the fronts are those of the gets."""
        *tried, end = lines
        self.counted(number, step, tried, end)
        now, names = state, []
        for line in tried:
            if names:
                raise Unfair("merge", f"{line!r} where a merge has no set to try")
            now, names = self.again(number, now, step, line, made)
        if end == "memory":
            return now._replace(working=state.working)
        if names:
            self.want(end, " ".join(["merge-conflict", *map(shown, names)]), "merge")
            return now._replace(working=state.working)
        return self.ended(number, state, now, step, end, made)

    def counted(self, number, step, tried, end):
        """The tries of a merge are no more than it may make, and all of them where they are spent. Each meets a later
        commit than the one before it, so that there are as many commits of other sessions where they are spent."""
        spent = SPENT.match(end)
        by = [int(it[2]) for it in [*map(TRIED.match, tried), spent] if it]
        if len(tried) >= step.tries or spent and len(tried) + 1 != step.tries:
            raise Unfair("tries", f"{len(tried)} tries with a get and {end!r} where {step.tries} are allowed")
        if by != sorted(set(by)):
            raise Unfair("rise", f"the commits in the way are {by}")
        others = sum(1 for commit in self.text.commits if commit.session != number)
        if spent and step.tries > others:
            raise Unfair("bound", f"{step.tries} tries are spent by {others} commits of other sessions")

    def again(self, number, state, step, line, made):
        """A session behind a try that met a conflict, with what it tries next, and the names in conflict."""
        found = TRIED.match(line)
        if not found:
            raise Unfair("merge", f"{line!r} tells no try")
        front = self.placed(int(found[3]), state.told, line, made)
        again = self.placed(int(found[4]), front, line, made)
        refusal, wanted = self.judge.early(state, step.name)
        verdict = f"refused {refusal}" if refusal else self.judge.verdict(number, state, wanted, front)[0]
        self.want(f"conflict {found[1]} by {found[2]} front {front}", verdict, "merge")
        return self.judge.remade(state, step.name, step.strategy, again)

    def ended(self, number, state, now, step, end, made):
        """A session after the last set of a merge."""
        if end.startswith("conflict "):
            raise Unfair("merge", f"{end!r} is told by a set alone")
        line = re.sub("^spent ", "conflict ", end)
        after = self.set(number, now, step.name, line, self.placed(front_of(end), now.told, end, made))
        is_stored = end.startswith(("commit ", "same "))
        return after if is_stored else after._replace(working=state.working)

    def status(self):
        lines = [line for phase in self.text.replies for replies in phase.values() for line in replies]
        return 70 if "memory" in lines else 74 if any(DISK_FAULT in line for line in lines) else 0

    # ---- files

    def files(self, more=None, front=None):
        """What the files hold behind the first so many commits, or behind all and one set more."""
        texts, front = dict(self.store.files), len(self.history) if front is None else front
        for mount in self.history.touched(front):
            texts[self.store.mounts[mount][1]] = self.store.text(mount, self.history.owned(mount, front))
        for mount in more.touched if more else []:
            texts[self.store.mounts[mount][1]] = self.store.text(mount, self.judge.behind(mount, more, front))
        return {name: data for name, data in texts.items() if data}

    def hold(self, after, has_failed):
        """The files behind are those of the history. A set that failed last may be there whole, or come back."""
        wanted = [self.files()]
        wanted += [self.files(it) for front, it in self.failed if front == len(self.history)]
        found = held(after)
        if not (self.failed or has_failed) and is_left_open(after):
            raise Unfair("files", "the journal is left open")
        if not found or any(it not in wanted for it in found):
            names = {name for it in found for name in {*it, *wanted[0]} if it.get(name) != wanted[0].get(name)}
            raise Unfair("files", f"they are not those of the history: {' '.join(sorted(names)) or 'a broken journal'}")


def held(files):
    """What the files of an image stand for, without those that hold nothing."""
    return [{name: data for name, data in it.items() if data} for it in outcomes(files)]


def judged(script_bytes, data, status, before, after, has_failed=False):
    """Judges a run, in which some call of the disk may have failed; gives how many replies there were of each kind."""
    try:
        script = script_of(script_bytes)
        store = Store(before)
    except (BadScript, NotOpened) as why:
        # A script without a reading leaves the files alone; an opening may bring an open entry in before it is refused.
        is_left = after == before if isinstance(why, BadScript) else outcomes(after)[:1] == outcomes(before)[:1]
        if data or status != 5 or not is_left:
            told = f"a batch that isn't played ({why}) prints, stores, or ends with {status}"
            raise Unfair("refused", told) from None
        return collections.Counter()
    trial = Trial(script, store, text_of(data, script, store))
    counts = trial.all()
    if status != trial.status():
        raise Unfair("status", f"{status} where {trial.status()} is wanted")
    trial.hold(after, has_failed)
    counts["commits"] = len(trial.history)
    return counts
