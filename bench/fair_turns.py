"""Fair texts that are turned unfair, for bench/fair.py selftest: each turn has to be refused, by the rule it breaks.

Some texts stand here with their turns. Many more are made up, by a store that plays scripts in any order and whose disk
fails now and then; each of their lines is dropped, doubled, changed with the next one, or has a number that is one more
or less. What is still fair of these tells another front of a reply, and nothing else. Stores that merge, watch, take
back or count conflicts by key in a wrong way are told by what they print of made-up scripts.
"""
import collections
import random
import re
import sys

import fair_cases
import fair_counting
import fair_merges
import fair_undos
import fair_watches
from fair_cases import NESTED
from fair_files import Store, journal_of
from fair_formats import dump_of
from fair_judge import Trial, Unfair, judged, rendered, text_of
from fair_play import Play
from fair_scripts import Making, files_of, key, relative_keys, script_of
from fair_wrong import told_wrong

TEXTS, TURNS = 60, 60
CASES = fair_cases.CASES + fair_merges.CASES + fair_watches.CASES + fair_undos.CASES + fair_counting.CASES
# how a line begins that ends with a front
FRONTED = ("conflict", "refused", "tried", "spent")


def first_with(data, old, new):
    if data.count(old) != 1:
        raise SystemExit(f"{old!r} doesn't stand once in\n{data}")
    return data.replace(old, new)


def rule_of(script, data, files):
    """The rule that a text breaks, None where it is fair."""
    trial = Trial(script, Store(files), None)
    try:
        trial.text = text_of(data.encode(), script, trial.store)
        trial.all()
    except Unfair as why:
        return why.rule
    return None


def after_of(script, data, files):
    """The files behind a fair text."""
    store = Store(files)
    trial = Trial(script, store, text_of(data.encode(), script, store))
    trial.all()
    return trial.files(), trial.status()


def told_cases():
    """The cases with their turns: how many turns were refused, and what went wrong."""
    refused, wrong = 0, []
    for case in CASES:
        script, text = script_of(case.script[1:].encode()), case.text[1:]
        rule = rule_of(script, text, case.files)
        if rule:
            wrong.append(f"{case.name}: not fair, {rule}")
        for name, old, new, wanted in case.turns:
            rule = rule_of(script, first_with(text, old, new), case.files)
            refused += rule is not None
            if rule != wanted:
                wrong.append(f"{case.name}, {name}: {rule} where {wanted} is wanted")
    return refused, wrong


FILE_TURNS = [
    ("a commit that is not in its file", {"user.ecf": NESTED["user.ecf"]}, "files"),
    ("what another mount hides is lost", {"user.ecf": dump_of(relative_keys(key("/a", "2")))}, "files"),
    ("a file that no commit touched", {"dir.ecf": b"kdbOpen 2\n$end\n"}, "files"),
    ("the other file's layout is lost", {"sw.ini": b"x = 1"}, "files"),
    ("a former journal's gate that is open", {"journal": b"\1\2\0\0\0\1\0"}, "files"),
    ("an entry that waits", {"journal2": journal_of(["dir.ecf"], {"dir.ecf": b"kdbOpen 2\n$end\n"})}, "files"),
]


def told_files():
    """A run's files behind it, and its status: what is wrong of them is refused."""
    script = b"session 1\nget user:/\nput user:/a 2\nset user:/\n"
    text = "phase 1\nsession 1\ngot 0 2\ncommit 1 aside 0\nhistory 1\ncommit 1 by 1\ntouched user:/\n"
    text += '+ user:/a "2"\nend\n'
    after, status = after_of(script_of(script), text, NESTED)
    runs = [("as it is", {}, 0, None), *((name, turn, 0, rule) for name, turn, rule in FILE_TURNS)]
    runs += [("a status of a fault", {}, 74, "status"), ("a status of want of memory", {}, 70, "status")]
    wrong = []
    for name, turn, ends, wanted in runs:
        try:
            judged(script, text.encode(), ends, NESTED, {**after, **turn})
            rule = None
        except Unfair as why:
            rule = why.rule
        if rule != wanted:
            wrong.append(f"files, {name}: {rule} where {wanted} is wanted")
    return len(runs) - 1, wrong


def numbers_of(line):
    return list(re.finditer(r"(?<![\w/#-])[0-9]+(?![\w/])", line))


def turned(lines, chance):
    """Lines with one turn, and whether it is one of a front alone."""
    at, turn = chance.randrange(len(lines)), chance.randrange(4)
    if turn == 0:
        return lines[:at] + lines[at + 1 :], False
    if turn == 1:
        return lines[: at + 1] + lines[at:], False
    if turn == 2:
        return lines[:at] + lines[at : at + 2][::-1] + lines[at + 2 :], False
    numbers = numbers_of(lines[at])
    if not numbers:
        return lines, False
    number = chance.choice(numbers)
    other = str(max(0, int(number[0]) + chance.choice([-1, 1])))
    line = lines[at][: number.start()] + other + lines[at][number.end() :]
    begin = lines[at][: number.start()]
    is_later = begin.endswith((" front ", " again ")) and line.startswith(FRONTED)
    is_front = begin in ("got ", "same ", "watch ", "news ") or is_later
    return lines[:at] + [line] + lines[at + 1 :], is_front


def told_texts():
    """Made up texts with their turns."""
    counts, wrong = collections.Counter(), []
    for seed in range(TEXTS):
        chance, files = random.Random(f"turns {seed}"), files_of(seed)
        script = script_of(Making(seed, most=80).script())
        play = Play(script, Store(files), chance, 0.1 if seed % 3 == 0 else 0)
        lines = rendered(script, play.text(), play.store.points)[:-1].split("\n")
        rule = rule_of(script, "\n".join(lines) + "\n", files)
        if rule:
            wrong.append(f"text {seed}: not fair, {rule}")
        for _ in range(TURNS):
            other, is_front = turned(lines, chance)
            if other == lines:
                continue
            rule = rule_of(script, "\n".join(other) + "\n", files)
            counts["refused" if rule else "front"] += 1
            if rule is None and not is_front:
                line = next((b for a, b in zip(lines, other) if a != b), "a line less")
                wrong.append(f"text {seed}: {line!r} is taken as fair")
    return counts, wrong


def selftest():
    refused, wrong = told_cases()
    many, more = told_files()
    counts, most = told_texts()
    stores, taken = told_wrong()
    print(f"{len(CASES)} texts, and {refused} turns of them that are refused, each by its rule")
    print(f"{many} runs with other files or another status are refused")
    print(f"{TEXTS} texts that were made up are fair, and {counts['refused']:,} turns of them are refused")
    print(f"{counts['front']} turns that tell another front alone are fair as well")
    print(f"{stores - len(taken)} of {stores} stores that merge, watch, take back or count in a wrong way are refused")
    for it in wrong + more + most + taken:
        print(it)
    sys.exit(1 if wrong or more or most or taken or not counts["refused"] else 0)
