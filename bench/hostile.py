#!/usr/bin/env python3
"""hostile.py: hostile bytes for each format, the journal and the body of its entries, the mount table, the script of a
batch and an import: good texts cut at each byte, with each byte changed, and with other sizes. What each must give say
slow readers, which are written from the definitions and share no code with the tool's.

    bench/hostile.py write           writes crates/kdb_cases/data/hostile.txt, and its lines in stdout
    bench/hostile.py check [STDOUT]  whether these are just so, and whether every line there about a file or a body is
                                     answered as the slow readers have it
    bench/hostile.py cases PROGRAM   asks the built program kdb_cases about many more: a byte of a good text changed
                                     to each other value, and the short texts of the tables cut and changed, too
    bench/hostile.py kdb             asks build/kdb, or the program that KDB names: mounted files, imports, journals and
                                     batches in folders of their own
    bench/hostile.py run PROGRAM     does both; bench/hostile.sh calls this

The last three print how many texts of each kind were tried. Not part of the gate, but for the table that it writes.
"""
import collections
import os
import subprocess
import sys
import tempfile

from fair import files_in, played, program, write_files
from fair_files import OWN, NotOpened, Store
from fair_formats import READERS, BadFile, dump_of
from fair_judge import Unfair, judged
from fair_keys import CASCADING, USER, name_of, plain, spelling
from fair_scripts import BadScript, script_of
from hostile_cases import (JOURNALS, PLACE, TwoTexts, answer_to, bytes_of, imported, of_body, of_file, of_former,
                           of_import, of_journal, of_script, of_table)
from hostile_texts import BYTES, DECIMALS, GOOD, LENGTHS, VALUES, changed, changed_once, cut, data_of, sized

TOP = os.path.dirname(os.path.dirname(os.path.abspath(__file__)))
CASES = f"{TOP}/crates/kdb_cases"
DATA, STDOUT = f"{CASES}/data/hostile.txt", f"{CASES}/stdout"
HEAD = "# Hostile bytes, and what slow readers in another language say of them: bench/hostile.py writes these lines."
FOOT = "# The end of what bench/hostile.py writes."


class Wrong(Exception):
    pass


def asking(kind):
    """How texts of a kind are asked about."""
    if kind in READERS:
        return lambda data: of_file(kind, data)
    others = {"body": of_body, "journal": of_journal, "former": of_former, "script": of_script, "table": of_table}
    return others[kind]


# ---- the table of the gate

def table():
    """The lines of the gate's table, each with what is wanted below it."""
    lines = [(HEAD, [])]
    for kind, (good, *_) in GOOD.items():
        if kind == "table":
            continue
        data = data_of(good)
        parts = [("cut at each byte", cut(data)), ("with each byte changed", changed_once(data, VALUES[kind])),
                 ("with other sizes", sized(good, [LENGTHS] if kind in JOURNALS else (DECIMALS, BYTES, LENGTHS)))]
        if kind == "journal":
            # Its list is that of a former journal, whose bytes are changed above: the gate's table is to be quick.
            parts = [parts[0]]
        for said, texts in parts:
            lines += [("", []), (f"# {kind}: {said}.", [])]
            for it in dict.fromkeys(texts):
                lines += asking(kind)(it)
    for kind in READERS:
        lines += [("", []), (f"# An import of {kind}, with one byte in four changed.", [])]
        for it in changed_once(data_of(GOOD[kind][0]), VALUES[kind])[::4]:
            lines += of_import(kind, it)
    return lines + [("", []), (FOOT, [])]


def data_lines(lines):
    return "".join(f"{line}\n" for line, _ in lines)


def stdout_lines(lines):
    return "".join(f"{line}\n" + "".join(f"  {it}\n" for it in wanted) for line, wanted in lines)


def around(text):
    """What stands before and behind the table in what kdb_cases prints."""
    begin, end = text.find(f"{HEAD}\n"), text.find(f"{FOOT}\n")
    if begin < 0 or end < begin:
        return text, None, ""
    end += len(FOOT) + 1
    return text[:begin], text[begin:end], text[end:]


def read(path):
    with open(path, encoding="utf-8") as file:
        return file.read()


def write():
    lines = table()
    before, _, behind = around(read(STDOUT))
    for path, text in ((DATA, data_lines(lines)), (STDOUT, before + stdout_lines(lines) + behind)):
        with open(path, "w", encoding="utf-8") as file:
            file.write(text)
    print(f"{len(lines)} lines")


def answered(text):
    """Each line of what kdb_cases prints, with the answers below it."""
    found = []
    for line in text.split("\n"):
        if line.startswith("  ") and found:
            found[-1][1].append(line[2:])
        else:
            found.append((line, []))
    return found


def check(path=STDOUT):
    lines = table()
    if read(DATA) != data_lines(lines):
        raise Wrong(f"{DATA} is not as this script makes it")
    before, found, behind = around(read(path))
    if found != stdout_lines(lines):
        raise Wrong(f"{path} has not what the slow readers say of {DATA}")
    counts = collections.Counter()
    for line, said in answered(before + behind):
        wanted = answer_to(line)
        if wanted is not None and wanted != said:
            raise Wrong(f"{line[:200]!r}: {said} where {wanted} is wanted")
        counts[line.split(" ", 1)[0]] += wanted is not None
    told = ", ".join(f"{word} {count}" for word, count in counts.most_common() if count)
    print(f"{len(lines)} lines are as the slow readers have them, and these of the other tables: {told}")


# ---- many more texts

LONGEST_BASE, MOST_LINES = 120, 5000
TABLES = {"dumps": "dump", "simpleini": "simpleini", "hosts": "hosts", "json": "json", "bodies": "body"}


def hostile(kind, good):
    """A good text cut at each byte, with other sizes, and with each byte changed to each of eight values."""
    data = data_of(good)
    return list(dict.fromkeys(cut(data) + sized(good) + changed(data, VALUES[kind])))


def more_texts(kind):
    """Hostile texts of a kind: of the good ones, and of the short ones of the tables, good or not."""
    texts = [it for good in GOOD[kind] for it in sized(good)]
    bases = [data_of(good) for good in GOOD[kind]]
    if kind in READERS or kind == "body":
        texts += [it for base in bases for it in changed(base, range(256))]
    for file in (file for file, word in TABLES.items() if word == kind):
        said = (line.partition(" ") for line in read(f"{CASES}/data/{file}.txt").split("\n"))
        bases += [bytes_of(text) for word, _, text in said if word == kind and "|(" not in text]
    for base in (it for it in bases if len(it) <= LONGEST_BASE):
        texts += cut(base) + changed(base, VALUES[kind])
    return list(dict.fromkeys(texts))


class Counts:
    """How many texts of each kind were tried, how many of them have a reading, and how many are refused."""

    def __init__(self):
        self.rows = collections.Counter()

    def __add__(self, other):
        whole = Counts()
        whole.rows = self.rows + other.rows
        return whole

    def add(self, kind, has_reading):
        self.rows[kind, has_reading] += 1

    def print(self):
        kinds = list(dict.fromkeys(kind for kind, _ in self.rows))
        print("| texts of | tried | have a reading | have none |\n|---|---|---|---|")
        for kind in kinds:
            good, bad = self.rows[kind, True], self.rows[kind, False]
            print(f"| {kind} | {good + bad:,} | {good:,} | {bad:,} |")
        print(f"\n{self.rows.total():,} texts, each answered as the slow readers have it.")


def is_read(lines):
    """Whether what is wanted of a text is no refusal."""
    said = [it for _, wanted in lines for it in wanted]
    return not any(it.startswith(("bad at ", "err kdb: C03100 bad-", "err kdb: C03200 bad-")) for it in said)


def asked(cases, lines):
    """What the program says of some lines; the first line of which it says another thing than is wanted is told."""
    with tempfile.NamedTemporaryFile("w", encoding="utf-8") as file:
        file.write(data_lines(lines))
        file.flush()
        printed = subprocess.run([cases, file.name], stdout=subprocess.PIPE, check=True, timeout=600).stdout.decode()
    for (line, wanted), found in zip(lines, answered(printed)):
        if found != (line, wanted):
            raise Wrong(f"{line!r}: {found[1]} where {wanted} is wanted")
    if printed != stdout_lines(lines):
        raise Wrong(f"{len(lines)} lines have other answers")


def ask_each(cases, said, texts, asks, counts):
    """Asks about texts, many in one run of the program. Of one without a single answer nothing is asked."""
    lines = []
    for it in texts:
        try:
            here = asks(it)
        except TwoTexts:
            continue
        counts.add(said, is_read(here))
        lines += here
        if len(lines) >= MOST_LINES:
            asked(cases, lines)
            lines = []
    asked(cases, lines)


def ask_cases(cases):
    counts = Counts()
    for kind in GOOD:
        ask_each(cases, f"{kind}, in kdb_cases", more_texts(kind), asking(kind), counts)
    for kind in READERS:
        texts = [it for good in GOOD[kind] for it in hostile(kind, good)]
        ask_each(cases, f"{kind} imported, in kdb_cases", texts, lambda it, kind=kind: of_import(kind, it), counts)
    return counts


# ---- the executable

def ran(kdb, words, before, given=b""):
    """A run over some files: its status, out, err, and the files behind it."""
    with tempfile.TemporaryDirectory() as folder:
        write_files(f"{folder}/.kdb", before)
        made = subprocess.run([kdb, *words], cwd=folder, input=given, capture_output=True, check=False, timeout=60)
        return made.returncode, made.stdout, made.stderr, files_in(f"{folder}/.kdb")


def line_of(why):
    return f"kdb: {why}\n".encode() if why else b""


def is_so(found, why, out, files):
    """Whether a run ended with a refusal, or with an output, and with some files, of which empty ones don't count."""
    status, said, err, after = found
    held = [{name: data for name, data in it.items() if data and name not in OWN} for it in (files, after)]
    return (status, said, err) == (5 if why else 0, b"" if why else out, line_of(why)) and held[0] == held[1]


MOUNTED = (USER, ("m",))


def mount_of(kind):
    """The mount table of a file `m` in a format."""
    part = "mountpoints/" + spelling((CASCADING, (spelling(MOUNTED),)))[1:]
    return dump_of({name_of(f"/{part}/path"): plain("m"), name_of(f"/{part}/plugin"): plain(kind)})


def try_mounted(kdb, kind, data):
    """A file under a mount: a dump of its keys, or the line of its fault."""
    why, out = None, b""
    try:
        out = dump_of(READERS[kind](data))
    except BadFile as at:
        why = f"C03100 bad-file {spelling(MOUNTED)} {at}"
    before = {"elektra.ecf": mount_of(kind), "m": data}
    return why, is_so(ran(kdb, ["export", spelling(MOUNTED), "dump"], before), why, out, before)


def try_import(kdb, kind, data):
    held, why = imported(kind, data)
    return why, is_so(ran(kdb, ["import", spelling(PLACE), kind], {}, data), why, b"", {"user.ecf": held})


def try_journal(kdb, name, data):
    """A journal that stands alone: its entries are in their files behind any run."""
    why, files = None, {}
    try:
        files = Store({name: data}).files
    except NotOpened as at:
        why = str(at)
    return why, is_so(ran(kdb, ["ls", "user:/"], {name: data}), why, b"", files)


def try_script(kdb, data):
    """A batch: what it prints is judged as bench/fair.py judges it, and why it isn't played is told."""
    found = played(kdb, data, {})
    try:
        script_of(data)
    except BadScript as at:
        return at, (found.status, found.out, found.err) == (5, b"", line_of(f"C03100 bad-line {at}"))
    try:
        judged(data, found.out, found.status, {}, found.after)
    except Unfair:
        return None, False
    return None, found.err == b""


def ask_kdb():
    kdb, counts = program(), Counts()
    tries = [(f"{kind} mounted", kind, lambda it, kind=kind: try_mounted(kdb, kind, it)) for kind in READERS]
    tries += [(f"{kind} imported", kind, lambda it, kind=kind: try_import(kdb, kind, it)) for kind in READERS]
    tries += [(kind, kind, lambda it, name=name: try_journal(kdb, name, it)) for kind, name in JOURNALS.items()]
    tries += [("script", "script", lambda it: try_script(kdb, it))]
    tries = [(f"{said}, in kdb", kind, tried) for said, kind, tried in tries]
    for said, kind, tried in tries:
        for it in dict.fromkeys(it for good in GOOD[kind] for it in hostile(kind, good)):
            why, fits = tried(it)
            if not fits:
                raise Wrong(f"{said}: {it!r} is not answered as the slow readers have it")
            counts.add(said, why is None)
    return counts


def main():
    words = sys.argv[1:]
    if words == ["write"]:
        write()
    elif words[:1] == ["check"] and len(words) in (1, 2):
        check(*words[1:])
    elif words[:1] == ["cases"] and len(words) == 2:
        ask_cases(os.path.abspath(words[1])).print()
    elif words == ["kdb"]:
        ask_kdb().print()
    elif words[:1] == ["run"] and len(words) == 2:
        (ask_cases(os.path.abspath(words[1])) + ask_kdb()).print()
    else:
        sys.exit(__doc__)


if __name__ == "__main__":
    try:
        main()
    except Wrong as wrong:
        sys.exit(str(wrong))
