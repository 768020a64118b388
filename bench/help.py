#!/usr/bin/env python3
"""help.py [KDB]: looks at the manual page and tries the completions for bash and zsh, over build/kdb where no program
is named.

Every command of the tool (the rows of tool_words, and that of kdb_tool) has to stand in all three; the page has to be
laid out without a complaint; each completion of the table has to give just these words. zsh is tried where it is
installed.
"""
import os
import re
import shutil
import subprocess
import sys
import tempfile

TOP = os.path.dirname(os.path.dirname(os.path.abspath(__file__)))

# What is typed up to the cursor, and the words that have to be offered.
BASH = [
    ("kdb me", ["meta-get", "meta-set", "meta-ls", "merge"]),
    ("kdb u", ["umount"]),
    ("kdb get user:/sw/", ["/sw/a", "/sw/b"]),
    ("kdb get sys", ["system:/"]),
    ("kdb rm -r user:/sw/b", ["/sw/b"]),
    ("kdb merge user:/sw/a user:/sw/a user:/sw/a user:/sw/a -s o", ["our"]),
    ("kdb export user:/sw s", ["simpleini"]),
    ("kdb import user:/sw j", ["json"]),
    ("kdb mount us", ["user.ecf"]),
    ("kdb mount -k us", ["user.ecf"]),
    ("kdb mount -k us user:/sw s", ["simpleini"]),
    ("kdb mounts ", []),
    ("kdb b", ["batch"]),
    ("kdb batch ", []),
    ("kdb ge", ["get", "gen"]),
    ("kdb gen ", []),
]
ASK_BASH = r"""
source "$1"; line=$2
COMP_LINE=$line; COMP_POINT=${#line}; COMP_WORDS=(); rest=$line
# Words as bash parts them: at blanks, with each colon as a word of its own.
IFS=' ' read -ra typed <<<"${line//:/ : }"
COMP_WORDS=("${typed[@]}"); [[ $line == *' ' ]] && COMP_WORDS+=("")
COMP_CWORD=$((${#COMP_WORDS[@]} - 1)); COMP_WORDBREAKS=$' \t\n"\'><=;|&(:'
_kdb; printf '%s\n' "${COMPREPLY[@]}"
"""
ASK_ZSH = r"""
autoload -Uz compinit; compinit -u -D
compadd() { local -a given; local from; while [[ $1 == -* ]]; do [[ $1 == -a ]] && from=yes; shift; done
  if [[ -n $from ]]; then print -l -- ${(P)1}; else print -l -- $@; fi }
_describe() { print -l -- ${${(P)2}%%:*} }
_files() { print -l -- .kdb/*(N:t) }
source "$1" >/dev/null 2>&1
words=(${(z)2}); [[ $2 == *' ' ]] && words+=(""); CURRENT=$#words
_kdb
"""


def commands():
    """The single commands, and the one that is told from them by the top call."""
    found = set()
    rows = [("tool_words/src/words.rt", r'^\s*"([a-z-]+)" =>'), ("kdb_tool/src/top.rt", r'== "([a-z-]+)"')]
    for file, row in rows:
        with open(f"{TOP}/crates/{file}", encoding="utf-8") as it:
            found.update(re.findall(row, it.read(), re.M))
    return sorted(found)


def main():
    kdb = os.path.abspath(sys.argv[1] if len(sys.argv) > 1 else f"{TOP}/build/kdb")
    bad, tried = [], 0
    for name in ("share/kdb.1", "share/kdb.bash", "share/_kdb"):
        with open(f"{TOP}/{name}", encoding="utf-8") as it:
            text = it.read().replace("\\-", "-")
        for command in commands():
            tried += 1
            if not re.search(rf"(?<![a-z-]){command}(?![a-z-])", text):
                bad.append(f"{name} lacks {command}")
    tried += 1
    told = subprocess.run(["groff", "-man", "-ww", "-z", f"{TOP}/share/kdb.1"], capture_output=True, text=True).stderr
    if told:
        bad.append(f"groff says of share/kdb.1: {told}")
    with tempfile.TemporaryDirectory() as folder:
        os.symlink(kdb, f"{folder}/kdb")
        seen = {**os.environ, "PATH": f"{folder}:{os.environ['PATH']}"}
        for name in ("user:/sw/a", "user:/sw/b"):
            subprocess.run(["kdb", "set", name, "1"], cwd=folder, env=seen, check=True, stdout=subprocess.DEVNULL)
        for line, wanted in BASH:
            tried += 1
            ask = ["bash", "-c", ASK_BASH, "bash", f"{TOP}/share/kdb.bash", line]
            ran = subprocess.run(ask, cwd=folder, env=seen, stdout=subprocess.PIPE, text=True)
            if sorted(ran.stdout.split()) != sorted(wanted):
                bad.append(f"bash offers for {line!r}: {ran.stdout.split()}")
        if shutil.which("zsh"):
            for line, wanted in [("kdb ", commands()), ("kdb export user:/sw ", ["dump", "simpleini", "hosts", "json"]),
                                 ("kdb mount -k ", ["user.ecf"]),
                                 ("kdb mount -k a user:/sw ", ["dump", "simpleini", "hosts", "json"]),
                                 ("kdb merge a b c d -s ", ["abort", "our", "their"]), ("kdb mounts ", []),
                                 ("kdb batch ", []), ("kdb gen ", []),
                                 ("kdb get ", ["user:/sw/a", "user:/sw/b", "spec:/", "dir:/", "user:/", "system:/"])]:
                tried += 1
                ask = ["zsh", "-f", "-c", ASK_ZSH, "zsh", f"{TOP}/share/_kdb", line]
                ran = subprocess.run(ask, cwd=folder, env=seen, capture_output=True, text=True)
                # The file calls its function once when it is read, as zsh has it: what is asked for stands behind that.
                if not set(wanted) <= set(ran.stdout.split()) or (not wanted and ran.stdout.split()):
                    bad.append(f"zsh offers for {line!r}: {ran.stdout.split()} {ran.stderr}")
    for it in bad:
        print(it)
    print(f"{tried - len(bad)} of {tried} as it must be")
    sys.exit(1 if bad else 0)


main()
