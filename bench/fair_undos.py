"""Fair texts of batches with their turns, for bench/fair.py selftest: those of commits that are taken back.
"""
from fair_cases import FIRST, RULED, SECOND, THIRD, TWO_KEYS, Case
from fair_formats import dump_of
from fair_scripts import key, relative_keys

BACK = SECOND.replace('+ user:/a "2"', "- user:/a")
AGAIN = THIRD.replace('"3"', '"1"')
BOTH = 'commit 1 by 1\ntouched user:/ system:/\n+ user:/a "1"\n+ system:/a "1"\n'
BOTH_BACK = "commit 2 by 2\ntouched user:/ system:/\n- user:/a\n- system:/a\n"
OLD = {**RULED, "user.ecf": dump_of(relative_keys(key("/a", "5")))}
MOUNTED = {
    "elektra.ecf": dump_of(relative_keys(key("/mountpoints/user:\\/m/path", "m.ecf"))),
    "m.ecf": b"x",
}

CASES = [
    Case("one commit overtakes another", {}, """
session 1
get user:/
put user:/a 1
set user:/
put user:/a 2
set user:/
undo 1
undo 2
look user:/a
undo 9
""", f"""
phase 1
session 1
got 0 0
commit 1 aside 0
commit 2 aside 0
refused C02000 overtaken user:/a by 2 front 2
commit 3 aside 0
found user:/a "1"
refused C01320 no-commit 9 front 3
history 3
{FIRST}{SECOND}{AGAIN}end
""", [
        ("a commit that is taken back though it was overtaken", "refused C02000 overtaken user:/a by 2 front 2\n"
         'commit 3 aside 0\nfound user:/a "1"\n', 'commit 3 aside 0\nrefused C02000 overtaken user:/a by 3 front 3\n'
         'found user:/a "1"\n', "undo"),
        ("overtaken by another commit", "by 2 front 2", "by 1 front 2", "undo"),
        ("overtaken at another name", "overtaken user:/a", "overtaken user:/b", "undo"),
        ("overtaken before the commit that overtakes it", "by 2 front 2", "by 2 front 1", "front"),
        ("no such commit, though it is there", "commit 3 aside 0\nfound", "refused C01320 no-commit 2 front 2\nfound",
         "own"),
        ("another number", "no-commit 9", "no-commit 8", "undo"),
        ("the commit itself found", "no-commit 9 front 3", "no-commit 9 front 2", "front"),
        ("nothing to do", "commit 3 aside 0", "same 2 aside 0", "own"),
        ("a working set that stays", 'found user:/a "1"', 'found user:/a "2"', "look"),
        ("the present value in the place of the former one", AGAIN, AGAIN.replace('"1"', '"2"'), "commit"),
        ("a removal in the place of the former value", AGAIN, AGAIN.replace('+ user:/a "1"', "- user:/a"), "commit"),
        ("keys left aside that aren't", "commit 3 aside 0", "commit 3 aside 1", "undo"),
        ("no answer", "refused C01320 no-commit 9 front 3\n", "", "text"),
    ]),
    Case("an undoing that is undone", {}, """
session 1
get user:/
put user:/a 1
set user:/
undo 1
undo 2
look user:/a
""", f"""
phase 1
session 1
got 0 0
commit 1 aside 0
commit 2 aside 0
commit 3 aside 0
found user:/a "1"
history 3
{FIRST}{BACK}{AGAIN}end
""", [
        ("the second one of the first commit", "commit 2 aside 0\ncommit 3 aside 0",
         "commit 2 aside 0\nrefused C02000 overtaken user:/a by 2 front 2", "own"),
        ("told as one", "commit 3 aside 0", "commit 2 aside 0", "own"),
    ]),
    Case("another's commit of two mounts", {}, """
session 1
get /
put user:/a 1
put system:/a 1
set /
phase
session 2
put user:/b 2
undo 1
look user:/b
set /
""", f"""
phase 1
session 1
got 0 0
commit 1 aside 0
phase 2
session 2
commit 2 aside 0
none
same 2 aside 0
history 2
{BOTH}{BOTH_BACK}end
""", [
        ("an edit that is stored", BOTH_BACK, BOTH_BACK.replace("- system", '+ user:/b "2"\n- system'), "commit"),
        ("an edit that stays", "none", 'found user:/b "2"', "look"),
        ("a get that is wanted first", "commit 2 aside 0\nnone\n", "refused C01320 not-fetched user:/\nnone\n", "own"),
        ("one of its mounts alone", BOTH_BACK, "commit 2 by 2\ntouched user:/\n- user:/a\n", "commit"),
        ("a conflict", "commit 2 aside 0\nnone\nsame 2 aside 0\nhistory 2\n" + BOTH + BOTH_BACK,
         "conflict user:/ by 1 front 1\nnone\nrefused C01320 not-fetched user:/\nhistory 1\n" + BOTH, "undo"),
        ("the record without its commit", "same 2 aside 0", "conflict user:/ by 2 front 2", "set"),
        ("a phase that sees nothing of the one before", f"commit 2 aside 0\nnone\nsame 2 aside 0\nhistory 2\n{BOTH}"
         f"{BOTH_BACK}", "refused C01320 no-commit 1 front 0\nfound user:/b \"2\"\n"
         f"refused C01320 not-fetched user:/\nhistory 1\n{BOTH}", "floor"),
    ]),
    Case("a rule that refuses what was before", OLD, """
session 1
get user:/
put user:/a 3
set user:/
get spec:/
meta spec:/a check/range 1-4
set spec:/
put user:/a 4
undo 1
look user:/a
set user:/
""", """
phase 1
session 1
got 0 1
commit 1 aside 0
got 1 1
commit 2 aside 0
refused C03200 invalid user:/a rule 4 given "5" front 2
found user:/a "3"
same 2 aside 0
history 2
commit 1 by 1
touched user:/
+ user:/a "3"
commit 2 by 1
touched spec:/
+ spec:/a ""
. "check/range" "1-4"
end
""", [
        ("the working set from before", 'found user:/a "3"', 'found user:/a "4"', "look"),
        ("the working set with what was refused", 'found user:/a "3"', 'found user:/a "5"', "look"),
        ("the record from before", "same 2 aside 0", "same 1 aside 0", "front"),
        ("told by a front before the rule", 'given "5" front 2', 'given "5" front 1', "front"),
        ("another rule", "rule 4", "rule 2", "undo"),
    ]),
    Case("a bad mount that the commit didn't touch", MOUNTED, """
session 1
get /a
put user:/a 1
put system:/a 1
set /a
undo 1
look user:/a
put system:/a 2
set system:/a
undo 2
look user:/a
""", """
phase 1
session 1
got 0 0
commit 1 aside 0
refused C03100 bad-file user:/m 1
found user:/a "1"
commit 2 aside 1
commit 3 aside 0
none
history 3
commit 1 by 1
touched user:/ system:/
+ user:/a "1"
+ system:/a "1"
commit 2 by 1
touched system:/
+ system:/a "2"
commit 3 by 1
touched system:/
+ system:/a "1"
end
""", [
        ("a get that goes well", "refused C03100 bad-file user:/m 1", "refused C01320 no-commit 1 front 1", "undo"),
        ("a working set that is got", 'found user:/a "1"', "none", "look"),
        ("all keys got for one mount", "commit 3 aside 0", "refused C03100 bad-file user:/m 1", "own"),
    ]),
    Case("no memory, and a disk that fails", TWO_KEYS, """
session 1
get user:/
del user:/a
set user:/
put user:/c 3
undo 1
look user:/c
undo 1
look user:/c
undo 1
""", """
phase 1
session 1
got 0 2
commit 1 aside 0
memory
found user:/c "3"
refused C01100 disk-fault front 1
none
commit 2 aside 0
history 2
commit 1 by 1
touched user:/
- user:/a
commit 2 by 1
touched user:/
+ user:/a "1"
end
""", [
        ("a working set that is got without memory", 'memory\nfound user:/c "3"', "memory\nnone", "look"),
        ("a working set that stays though the disk failed", "front 1\nnone", 'front 1\nfound user:/c "3"', "look"),
        ("a commit told as want of memory", "commit 2 aside 0", "memory", "own"),
    ]),
]
