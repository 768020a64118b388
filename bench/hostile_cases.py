"""The lines of crates/kdb_cases that bench/hostile.py asks: how bytes stand in them, and what the slow readers answer.
Written from the definitions alone, with no code in common with the tool's.
"""
import random

from fair_files import BadJournal, NotOpened, Store, body_of
from fair_formats import READERS, WRITERS, BadFile, NotStorable
from fair_judge import rendered
from fair_keys import CASCADING, LONGEST_PATH, USER, joined, path_bytes, spelling
from fair_keys import shown as shown_name
from fair_play import Play
from fair_scripts import BadScript, script_of

LONGEST_SHOWN = 400
LETTERS = {"n": b"\n", "r": b"\r", "t": b"\t", "s": b" ", "0": b"\0", "p": b"|", "e": b""}
SHOWN = {10: "|n", 13: "|r", 9: "|t", 0: "|0", 124: "|p"}


# ---- how bytes stand in a line

def plain_bytes(text, number=0):
    first, *pieces = text.split("|")
    data = [first.encode()]
    for piece in pieces:
        letter, rest = piece[:1], piece[1:]
        if letter == "x":
            data += [bytes.fromhex(rest[:2]), rest[2:].encode()]
        else:
            data += [str(number).encode() if letter == "#" else LETTERS[letter], rest.encode()]
    return b"".join(data)


def bytes_of(text):
    """The bytes that a text of a line stands for."""
    first, *pieces = text.split("|(")
    data = [plain_bytes(first)]
    for piece in pieces:
        repeated, rest = piece.split("|)", 1)
        ends, text = repeated.split(":", 1)
        begin, end = map(int, ends.split(".."))
        numbers = range(begin, end) if begin < end else range(begin, end, -1)
        data += [plain_bytes(text, number) for number in numbers] + [plain_bytes(rest)]
    return b"".join(data)


def spelled(data):
    """A text of a line that stands for some bytes, as the program prints them."""
    text = "".join(SHOWN.get(it) or (chr(it) if 32 <= it < 127 else f"|x{it:02x}") for it in data)
    return text or "|e"


def shown(data):
    return f"{len(data)} bytes" if len(data) > LONGEST_SHOWN else spelled(data)


# ---- what a line about a file or a body is answered

def read_of(kind, data):
    try:
        return f"{len(READERS[kind](data))} keys"
    except BadFile as why:
        return f"bad at line {why}"


def written(kind, other, data):
    """The text of the keys of a file in another format."""
    try:
        return shown(WRITERS[other](READERS[kind](data)))
    except BadFile:
        return f"no {kind}"
    except NotStorable as why:
        return f"no {other}: {spelling(why.args[0])}"


def first_of(kind, data):
    try:
        return next(map(spelling, sorted(READERS[kind](data))), "no keys")
    except BadFile:
        return f"no {kind}"


def entry_of(files):
    """The bytes that are written behind a gate for an entry: its body says that another gate follows, a closed one."""
    body = bytes([128 + len(files)])
    for name, data in files.items():
        body += bytes([len(name)]) + name.encode() + len(data).to_bytes(4, "little") + data
    return len(body).to_bytes(4, "little") + body + b"\0"


def body_told(data):
    try:
        files = body_of(data)
    except BadJournal as why:
        return [f"bad at {why}"]
    return [f"{name} {shown(it)}" for name, it in files.items()] + [f"entry {shown(entry_of(files))}"]


def answer_to(line):
    """What is wanted below a line about a file or a body, None for one about anything else."""
    word, _, rest = line.partition(" ")
    if word in READERS:
        return [read_of(word, bytes_of(rest))]
    if word == "body":
        return body_told(bytes_of(rest))
    kind, _, text = rest.partition(" ")
    if kind not in READERS or word not in ("again", "as-dump", "as-json", "first"):
        return None
    data = bytes_of(text)
    if word == "first":
        return [first_of(kind, data)]
    return [written(kind, kind if word == "again" else word[3:], data)]


# ---- lines that ask for all that some bytes mean, each with what is wanted below it

def of_file(kind, data):
    """All keys of a file, or the line of its fault."""
    try:
        keys = READERS[kind](data)
    except BadFile as why:
        return [(f"{kind} {spelled(data)}", [f"bad at line {why}"])]
    return [(f"as-dump {kind} {spelled(data)}", [shown(WRITERS["dump"](keys))])]


def of_body(data):
    return [(f"body {spelled(data)}", body_told(data))]


def ran(status, out=b"", err=b""):
    """How a run ended, as it is printed."""
    return [str(status)] + [f"{word} {shown(it)}" for word, it in (("out", out), ("err", err)) if it]


def refused(why):
    return ran(5, err=f"kdb: {why}\n".encode())


# the files of the kinds of journals: this program's, and a former one's
JOURNALS = {"journal": "journal2", "former": "journal"}


def of_former(data, names=("a", "b")):
    return of_journal(data, names, "journal")


def of_journal(data, names=("a", "b"), file="journal2"):
    """What an opening makes of a journal that stands alone: the files that are named, and those of its entries. One
    that is refused writes none.
    """
    lines = [("disk", []), (f"file {file} {spelled(data)}", [])]
    try:
        files, ended = Store({file: data}).files, ran(0)
    except NotOpened as why:
        files, ended = {}, refused(why)
    lines.append(("run ls user:/", ended))
    return lines + [(f"show {name}", [shown(files.get(name, b""))]) for name in sorted({*names, *files})]


class TwoTexts(Exception):
    """Two sessions have steps in one phase: what a batch prints then hangs on how its threads run."""


def played(data):
    """What a batch prints over an empty disk, or why it isn't played."""
    try:
        script = script_of(data)
    except BadScript as why:
        return None, "C01100 script-too-long" if why.args[0] == "too long" else f"C03100 bad-line {why}"
    if any(len(phase) > 1 for phase in script.phases):
        raise TwoTexts
    store = Store({})
    return rendered(script, Play(script, store, random.Random(0)).text(), store.points).encode(), None


def of_script(data):
    out, why = played(data)
    ended = refused(why) if why else ran(0, out)
    lines = [("disk", []), (f"input {spelled(data)}", []), ("run batch", ended)]
    return lines + ([(f"out {spelled(out)}", ["yes"])] if out and len(out) > LONGEST_SHOWN else [])


def of_table(data):
    """The mounts of a file of the mount table, or why it is none."""
    try:
        mounts = Store({"elektra.ecf": data}).mounts
        lines = (f"{shown_name(point)} {file} {kind}{' keys' if by_key else ''}\n" for point, file, kind, by_key in mounts)
        ended = ran(0, "".join(lines).encode())
    except NotOpened as why:
        ended = refused(why)
    return [("disk", []), (f"file elektra.ecf {spelled(data)}", []), ("run mounts", ended)]


PLACE = (USER, ("i",))


def imported(kind, data):
    """The file of `user:/` behind an import to a place over an empty disk, or why it is refused."""
    try:
        keys = {joined(PLACE, name): entry for name, entry in READERS[kind](data).items()}
    except BadFile as why:
        return b"", f"C03100 bad-file {spelling(PLACE)} {why}"
    if any(path_bytes(name) > LONGEST_PATH for name in keys):
        return b"", f"C03100 bad-file {spelling(PLACE)} 0"
    inside = {(CASCADING, name[1]): entry for name, entry in keys.items()}
    return WRITERS["dump"](inside) if inside else b"", None


def of_import(kind, data):
    held, why = imported(kind, data)
    ended = refused(why) if why else ran(0)
    return [("disk", []), (f"input {spelled(data)}", []), (f"run import {spelling(PLACE)} {kind}", ended),
            ("show user.ecf", [shown(held)])]
