"""Fair texts of batches with their turns, for bench/fair.py selftest: those of gets, edits, looks and sets.
"""
import collections

from fair_formats import dump_of
from fair_scripts import key, relative_keys

FIRST = 'commit 1 by 1\ntouched user:/\n+ user:/a "1"\n'
SECOND = 'commit 2 by 1\ntouched user:/\n+ user:/a "2"\n'
OTHER = 'commit 2 by 3\ntouched system:/\n+ system:/a "3"\n'
THIRD = 'commit 3 by 1\ntouched user:/\n+ user:/a "3"\n'
TWO_KEYS = {"user.ecf": dump_of(relative_keys(key("/a", "1"), key("/b", "2")))}
NESTED = {
    "elektra.ecf": dump_of(relative_keys(key("/mountpoints/user:\\/sw/path", "sw.ini"),
                                         key("/mountpoints/user:\\/sw/plugin", "simpleini"))),
    "user.ecf": dump_of(relative_keys(key("/a", "1"), key("/sw/hidden", "h"))),
    "sw.ini": b"x = 1\n",
}
RULED = {"spec.ecf": dump_of(relative_keys(key("/a", "", ("check/range", "1-9"))))}

# a name, the files before, the script, a fair text, and its turns: what is replaced by what, and the rule it breaks
Case = collections.namedtuple("Case", "name files script text turns")

CASES = [
    Case("one set after the other", {}, """
session 1
get user:/
put user:/a 1
set user:/
get user:/
put user:/a 2
set user:/
""", """
phase 1
session 1
got 0 0
commit 1 aside 0
got 1 1
commit 2 aside 0
history 2
commit 1 by 1
touched user:/
+ user:/a "1"
commit 2 by 1
touched user:/
+ user:/a "2"
end
""", [
        ("a front less than was told", "got 1 1", "got 0 1", "front"),
        ("a front beyond the history", "got 1 1", "got 3 1", "front"),
        ("a stale count", "got 1 1", "got 1 0", "get"),
        ("a commit left out", SECOND, "", "text"),
        ("a commit left out, and counted so", f"history 2\n{FIRST}{SECOND}", f"history 1\n{FIRST}", "own"),
        ("a commit doubled", f"history 2\n{FIRST}", f"history 3\n{FIRST}{FIRST}", "text"),
        ("a commit doubled, and counted so", f"history 2\n{FIRST}{SECOND}",
         f"history 3\n{FIRST}{SECOND}{SECOND.replace('commit 2', 'commit 3')}", "own"),
        ("an invented commit", f"history 2\n{FIRST}{SECOND}", f"history 3\n{FIRST}{SECOND}{THIRD}", "own"),
        ("a commit of another session", "commit 2 by 1", "commit 2 by 2", "own"),
        ("another value in the history", '+ user:/a "2"', '+ user:/a "3"', "commit"),
        ("another mount in the history", SECOND, SECOND.replace("touched", "touched dir:/"), "commit"),
        ("a mount that doesn't own the change", SECOND, SECOND.replace("user:/\n", "dir:/\n"), "history"),
        ("a mount that isn't there", SECOND, SECOND.replace("user:/\n", "user:/none\n"), "text"),
        ("keys left aside that aren't", "commit 2 aside 0", "commit 2 aside 1", "set"),
        ("no end", "end\n", "", "text"),
        ("more than the end", "end\n", "end\nend\n", "text"),
        ("a text in other letters", '"2"', '"\\x32"', "text"),
        ("a set that was the same", "commit 2 aside 0", "same 1 aside 0", "own"),
        ("commits that were told as one", "commit 2 aside 0", "commit 1 aside 0", "own"),
    ]),
    Case("no conflict with an own commit", {}, """
session 1
get user:/
put user:/a 1
set user:/
put user:/a 2
set user:/
""", """
phase 1
session 1
got 0 0
commit 1 aside 0
commit 2 aside 0
history 2
commit 1 by 1
touched user:/
+ user:/a "1"
commit 2 by 1
touched user:/
+ user:/a "2"
end
""", [
        ("a conflict with an own commit", f"commit 2 aside 0\nhistory 2\n{FIRST}{SECOND}",
         f"conflict user:/ by 1 front 1\nhistory 1\n{FIRST}", "set"),
        ("a set told as a fault and made", "commit 2 aside 0", "refused C01100 disk-fault front 1", "own"),
        ("a refusal from nowhere", f"commit 2 aside 0\nhistory 2\n{FIRST}{SECOND}",
         f"refused C01320 not-fetched user:/\nhistory 1\n{FIRST}", "set"),
    ]),
    Case("phases go on from all before", {}, """
session 1
get user:/
put user:/a 1
set user:/
phase
session 2
get user:/
look user:/a
""", """
phase 1
session 1
got 0 0
commit 1 aside 0
phase 2
session 2
got 1 1
found user:/a "1"
history 1
commit 1 by 1
touched user:/
+ user:/a "1"
end
""", [
        ("a get before an earlier phase", 'got 1 1\nfound user:/a "1"', "got 0 0\nnone", "floor"),
        ("a look that finds nothing", 'found user:/a "1"', "none", "look"),
        ("a look with another value", 'found user:/a "1"', 'found user:/a "2"', "look"),
        ("a look at another name", 'found user:/a "1"', 'found system:/a "1"', "look"),
        ("a reply of another session", "session 1\ngot 0 0\ncommit 1 aside 0\nphase 2\nsession 2\ngot 1 1\n",
         "session 1\ngot 1 1\ncommit 1 aside 0\nphase 2\nsession 2\ngot 0 0\n", "front"),
        ("a phase too few", "phase 2\n", "", "text"),
        ("a reply too many", 'found user:/a "1"\n', 'found user:/a "1"\nnone\n', "text"),
        ("a reply too few", 'found user:/a "1"\n', "", "text"),
    ]),
    Case("no phase shows what a later one commits", {}, """
session 1
get user:/
look user:/a
phase
session 2
get user:/
put user:/a 1
set user:/
""", """
phase 1
session 1
got 0 0
none
phase 2
session 2
got 0 0
commit 1 aside 0
history 1
commit 1 by 2
touched user:/
+ user:/a "1"
end
""", [
        ("a get behind a later phase", "got 0 0\nnone", 'got 1 1\nfound user:/a "1"', "ceiling"),
    ]),
    Case("in one phase a get may stand before another's commit", {}, """
session 1
get user:/
put user:/a 1
set user:/
session 2
get user:/
look user:/a
""", """
phase 1
session 1
got 0 0
commit 1 aside 0
session 2
got 0 0
none
history 1
commit 1 by 1
touched user:/
+ user:/a "1"
end
""", [("what was not seen", "none", 'found user:/a "1"', "look")]),
    Case("a commit blocks at its own mount alone", {}, """
session 1
get /
session 2
get /
session 3
get /
phase
session 1
put user:/a 1
set /
phase
session 2
put user:/a 2
set /
phase
session 3
put system:/a 3
set /
""", """
phase 1
session 1
got 0 0
session 2
got 0 0
session 3
got 0 0
phase 2
session 1
commit 1 aside 0
phase 3
session 2
conflict user:/ by 1 front 1
phase 4
session 3
commit 2 aside 0
history 2
commit 1 by 1
touched user:/
+ user:/a "1"
commit 2 by 3
touched system:/
+ system:/a "3"
end
""", [
        ("a needless conflict", f"commit 2 aside 0\nhistory 2\n{FIRST}{OTHER}",
         f"conflict user:/ by 1 front 1\nhistory 1\n{FIRST}", "set"),
        ("a lost update",
         f"conflict user:/ by 1 front 1\nphase 4\nsession 3\ncommit 2 aside 0\nhistory 2\n{FIRST}commit 2 by 3",
         f"commit 2 aside 0\nphase 4\nsession 3\ncommit 3 aside 0\nhistory 3\n{FIRST}"
         f"{SECOND.replace('by 1', 'by 2')}commit 3 by 3", "set"),
        ("a conflict told of another mount", "conflict user:/", "conflict dir:/", "set"),
        ("a conflict with a later commit", "by 1 front 1", "by 2 front 2", "ceiling"),
    ]),
    Case("keys that go, and metadata", TWO_KEYS, """
session 1
get user:/
del user:/b
meta user:/a note x
set user:/
""", """
phase 1
session 1
got 0 2
commit 1 aside 0
history 1
commit 1 by 1
touched user:/
+ user:/a "1"
. "note" "x"
- user:/b
end
""", [
        ("a lost removal", "- user:/b\n", "", "commit"),
        ("lost metadata", '. "note" "x"\n', "", "commit"),
        ("a removal of what isn't there", "- user:/b\n", "- user:/b\n- user:/c\n", "commit"),
        ("a removal told as a key", "- user:/b", '+ user:/b ""', "commit"),
    ]),
    Case("keys in proc, and keys left aside", {}, """
proc 1 /a p
session 1
get /
look /a
set /
session 2
get /
""", """
phase 1
session 1
got 0 1
found proc:/a "p"
same 0 aside 1
session 2
got 0 0
history 0
end
""", [
        ("another session's keys", "got 0 1\n", "got 0 0\n", "get"),
        ("keys of another in proc", "session 2\ngot 0 0", "session 2\ngot 0 1", "get"),
        ("a key left aside that isn't told", "same 0 aside 1", "same 0 aside 0", "set"),
        ("a fault where nothing would change", "same 0 aside 1", "refused C01100 disk-fault front 0", "set"),
    ]),
    Case("a set wants a get", {}, """
session 1
set user:/
get user:/
set user:/
""", """
phase 1
session 1
refused C01320 not-fetched user:/
got 0 0
same 0 aside 0
history 0
end
""", [
        ("a set without a get", "refused C01320 not-fetched user:/", "same 0 aside 0", "early"),
        ("the same refusal again", "same 0 aside 0", "refused C01320 not-fetched user:/", "set"),
    ]),
    Case("a rule is broken", RULED, """
session 1
get /
put user:/a 10
set /
""", """
phase 1
session 1
got 0 1
refused C03200 invalid user:/a rule 4 given "10" front 0
history 0
end
""", [
        ("another rule", "rule 4", "rule 2", "set"),
        ("another text", 'given "10"', 'given "1"', "set"),
        ("a breach that is stored", 'refused C03200 invalid user:/a rule 4 given "10" front 0\nhistory 0\n',
         'commit 1 aside 0\nhistory 1\ncommit 1 by 1\ntouched user:/\n+ user:/a "10"\n', "set"),
    ]),
    Case("memory changes nothing, and is told by the status", {}, """
session 1
get user:/
put user:/a 1
put user:/b 2
set user:/
""", """
phase 1
session 1
got 0 0
memory
commit 1 aside 0
history 1
commit 1 by 1
touched user:/
+ user:/b "2"
end
""", [
        ("an edit without memory that was made", '+ user:/b "2"\n', '+ user:/a "1"\n+ user:/b "2"\n', "text"),
        ("a commit without memory", "memory\ncommit 1 aside 0", "memory\nmemory", "own"),
    ]),
]
