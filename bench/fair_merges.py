"""Fair texts of batches with their turns, for bench/fair.py selftest: those of merged sets.
"""
from fair_cases import FIRST, TWO_KEYS, Case

SECOND = 'commit 2 by 2\ntouched user:/\n+ user:/b "2"\n'
BOTH = f"history 2\n{FIRST}{SECOND}"
ALONE = f"history 1\n{FIRST}"

# session 2 got before session 1 sets
BEHIND = """
session 1
get user:/
session 2
get user:/
phase
session 1
put user:/a 1
set user:/
phase
session 2
"""
BEGUN = """
phase 1
session 1
got 0 0
session 2
got 0 0
phase 2
session 1
commit 1 aside 0
phase 3
session 2
"""

CASES = [
    Case("a merge takes in what another set", {}, f"""{BEHIND}put user:/b 2
merge user:/ abort 2
look user:/a
set user:/
""", f"""{BEGUN}tried user:/ by 1 front 1 again 1
commit 2 aside 0
found user:/a "1"
same 2 aside 0
{BOTH}end
""", [
        ("a try left out", "tried user:/ by 1 front 1 again 1\n", "", "set"),
        ("a try that met nothing", "tried user:/ by 1 front 1 again 1", "tried user:/ by 1 front 0 again 1", "floor"),
        ("a try at another mount", "tried user:/", "tried dir:/", "merge"),
        ("a try without its get", "tried user:/ by 1 front 1 again 1", "conflict user:/ by 1 front 1", "merge"),
        ("a get before its set", "again 1", "again 0", "front"),
        ("a get that lies behind the commit", "again 1", "again 2", "front"),
        ("a try more than allowed", "again 1\n", "again 1\ntried user:/ by 2 front 2 again 2\n", "tries"),
        ("the same try again", "again 1\n", "again 1\ntried user:/ by 1 front 1 again 1\n", "tries"),
        ("tries that are spent too early", f'tried user:/ by 1 front 1 again 1\ncommit 2 aside 0\nfound user:/a "1"\n'
         f"same 2 aside 0\n{BOTH}", f"spent user:/ by 1 front 1\nnone\nconflict user:/ by 1 front 1\n{ALONE}", "tries"),
        ("a merge that ends as a set", "tried user:/ by 1 front 1 again 1\ncommit 2 aside 0\n"
         f'found user:/a "1"\nsame 2 aside 0\n{BOTH}', "conflict user:/ by 1 front 1\nnone\n"
         f"conflict user:/ by 1 front 1\n{ALONE}", "merge"),
        ("a conflict of names that is none", f'commit 2 aside 0\nfound user:/a "1"\nsame 2 aside 0\n{BOTH}',
         f"merge-conflict user:/a\nnone\nsame 1 aside 0\n{ALONE}", "set"),
        ("theirs as the base, and the base as theirs", SECOND, SECOND.replace("+", "- user:/a\n+"), "commit"),
        ("nothing as the base, and ours as theirs", SECOND, SECOND.replace("+", '+ user:/a "1"\n+'), "commit"),
        ("theirs alone", f"commit 2 aside 0\nfound user:/a \"1\"\nsame 2 aside 0\n{BOTH}",
         f'same 1 aside 0\nfound user:/a "1"\nsame 1 aside 0\n{ALONE}', "set"),
        ("the working set stays though it is stored", 'found user:/a "1"', "none", "look"),
        ("keys left aside that aren't", "commit 2 aside 0", "commit 2 aside 1", "set"),
        ("a number that is one less", "commit 2 aside 0", "commit 1 aside 0", "own"),
        ("an answer that fails, and is made", "commit 2 aside 0", "memory", "own"),
    ]),
    Case("no try is left", {}, f"""{BEHIND}put user:/b 2
merge user:/ abort 1
look user:/a
set user:/
""", f"""{BEGUN}spent user:/ by 1 front 1
none
conflict user:/ by 1 front 1
{ALONE}end
""", [
        ("tries counted from zero", f"spent user:/ by 1 front 1\nnone\nconflict user:/ by 1 front 1\n{ALONE}",
         f'tried user:/ by 1 front 1 again 1\ncommit 2 aside 0\nfound user:/a "1"\nsame 2 aside 0\n{BOTH}', "tries"),
        ("a set's conflict", "spent user:/ by 1 front 1\nnone", "conflict user:/ by 1 front 1\nnone", "merge"),
        ("another commit", "spent user:/ by 1", "spent user:/ by 0", "set"),
        ("tries that nothing spent", "spent user:/ by 1 front 1", "spent user:/ by 1 front 0", "floor"),
        ("a get behind the last try", "none\nconflict user:/ by 1 front 1", "none\nsame 1 aside 0", "set"),
        ("a working set that takes in what wasn't got", "none", 'found user:/a "1"', "look"),
    ]),
    Case("both sides changed a key, under abort", {}, f"""{BEHIND}put user:/a 2
put user:/b 2
merge user:/ abort 2
look user:/a
set user:/
""", f"""{BEGUN}tried user:/ by 1 front 1 again 1
merge-conflict user:/a
found user:/a "2"
commit 2 aside 0
{BOTH.replace("+ user:/b", '+ user:/a "2"^+ user:/b').replace("^", chr(10))}end
""", [
        ("no name", "merge-conflict user:/a", "merge-conflict", "merge"),
        ("another name", "merge-conflict user:/a", "merge-conflict user:/b", "merge"),
        ("a name more", "merge-conflict user:/a", "merge-conflict user:/a user:/b", "merge"),
        ("ours without a word", 'merge-conflict user:/a\nfound user:/a "2"\ncommit 2 aside 0',
         'commit 2 aside 0\nfound user:/a "2"\nsame 2 aside 0', "merge"),
        ("tries that are spent", "merge-conflict user:/a", "spent user:/ by 1 front 1", "rise"),
        ("a conflict that isn't got", 'found user:/a "2"\ncommit 2 aside 0',
         'found user:/a "2"\nconflict user:/ by 1 front 1', "own"),
        ("a working set that takes in theirs", 'found user:/a "2"', 'found user:/a "1"', "look"),
    ]),
    Case("our removal against their change, under abort", TWO_KEYS, """
session 1
get user:/
session 2
get user:/
phase
session 1
put user:/a 3
set user:/
phase
session 2
del user:/a
merge user:/ abort 9
look user:/a
""", """
phase 1
session 1
got 0 2
session 2
got 0 2
phase 2
session 1
commit 1 aside 0
phase 3
session 2
tried user:/ by 1 front 1 again 1
merge-conflict user:/a
none
history 1
commit 1 by 1
touched user:/
+ user:/a "3"
end
""", [
        ("a removal that is merged without a word", 'merge-conflict user:/a\nnone\nhistory 1\ncommit 1 by 1\n'
         'touched user:/\n+ user:/a "3"\n', 'commit 2 aside 0\nnone\nhistory 2\ncommit 1 by 1\ntouched user:/\n'
         '+ user:/a "3"\ncommit 2 by 2\ntouched user:/\n- user:/a\n', "merge"),
        ("a removal that is dropped without a word", "merge-conflict user:/a\nnone",
         'same 1 aside 0\nfound user:/a "3"', "merge"),
    ]),
    Case("both sides changed a key, and ours counts", {}, f"""{BEHIND}put user:/a 2
merge user:/ our 2
""", f"""{BEGUN}tried user:/ by 1 front 1 again 1
commit 2 aside 0
history 2
{FIRST}commit 2 by 2
touched user:/
+ user:/a "2"
end
""", [
        ("theirs counts", 'commit 2 aside 0\nhistory 2\n' + FIRST + 'commit 2 by 2\ntouched user:/\n+ user:/a "2"\n',
         f"same 1 aside 0\n{ALONE}", "set"),
        ("as under abort", 'commit 2 aside 0\nhistory 2\n' + FIRST + 'commit 2 by 2\ntouched user:/\n+ user:/a "2"\n',
         f"merge-conflict user:/a\n{ALONE}", "set"),
    ]),
    Case("both sides changed a key, and theirs counts", {}, f"""{BEHIND}put user:/a 2
merge user:/ their 2
look user:/a
""", f"""{BEGUN}tried user:/ by 1 front 1 again 1
same 1 aside 0
found user:/a "1"
{ALONE}end
""", [
        ("ours counts", f'same 1 aside 0\nfound user:/a "1"\n{ALONE}',
         f'commit 2 aside 0\nfound user:/a "2"\nhistory 2\n{FIRST}commit 2 by 2\ntouched user:/\n+ user:/a "2"\n',
         "set"),
        ("the working set stays though nothing was left to store", 'found user:/a "1"', 'found user:/a "2"', "look"),
    ]),
    Case("a merge that another overtakes twice", {}, """
session 1
get user:/
put user:/a 1
set user:/
put user:/a 2
set user:/
put user:/a 3
set user:/
put user:/a 4
set user:/
session 2
get user:/
put user:/b 2
merge user:/ our 9
get user:/
""", """
phase 1
session 1
got 0 0
commit 1 aside 0
commit 2 aside 0
commit 3 aside 0
commit 4 aside 0
session 2
got 0 0
tried user:/ by 1 front 2 again 3
tried user:/ by 4 front 4 again 4
commit 5 aside 0
got 5 2
history 5
commit 1 by 1
touched user:/
+ user:/a "1"
commit 2 by 1
touched user:/
+ user:/a "2"
commit 3 by 1
touched user:/
+ user:/a "3"
commit 4 by 1
touched user:/
+ user:/a "4"
commit 5 by 2
touched user:/
+ user:/b "2"
end
""", [
        ("the commit and the front exchanged", "by 1 front 2", "by 2 front 1", "merge"),
        ("the front and the get exchanged", "front 2 again 3", "front 3 again 2", "front"),
        ("the commit and the get exchanged", "by 1 front 2 again 3", "by 3 front 2 again 1", "front"),
        ("the last commit in the way in the place of the first", "by 1 front 2", "by 2 front 2", "merge"),
        ("the same commit twice", "by 4 front 4", "by 1 front 4", "rise"),
        ("the second try told first", "tried user:/ by 1 front 2 again 3\ntried user:/ by 4 front 4 again 4",
         "tried user:/ by 4 front 4 again 4\ntried user:/ by 1 front 2 again 3", "rise"),
        ("a get that found what the next try meets", "again 3", "again 4", "merge"),
        ("a front that falls", "by 4 front 4 again 4", "by 4 front 2 again 4", "front"),
        ("a get that falls", "by 4 front 4 again 4", "by 4 front 4 again 3", "front"),
        ("a get behind its own commit", "front 4 again 4", "front 4 again 5", "front"),
        ("what the first get found as the base of both", '+ user:/b "2"', '+ user:/a "3"\n+ user:/b "2"', "commit"),
        ("the first try left out", "tried user:/ by 1 front 2 again 3\n", "", "merge"),
        ("the second try left out", "tried user:/ by 4 front 4 again 4\n", "", "set"),
    ]),
    Case("tries are spent by commits of others alone", {}, """
session 1
get user:/
session 2
get user:/
put user:/b 2
set user:/
phase
session 1
get user:/
put user:/a 1
set user:/
phase
session 2
put user:/c 3
merge user:/ our 2
""", """
phase 1
session 1
got 0 0
session 2
got 0 0
commit 1 aside 0
phase 2
session 1
got 1 1
commit 2 aside 0
phase 3
session 2
tried user:/ by 2 front 2 again 2
commit 3 aside 0
history 3
commit 1 by 2
touched user:/
+ user:/b "2"
commit 2 by 1
touched user:/
+ user:/a "1"
commit 3 by 2
touched user:/
+ user:/c "3"
end
""", [
        ("one of them by an own commit", "tried user:/ by 2 front 2 again 2\ncommit 3 aside 0\nhistory 3\n"
         'commit 1 by 2\ntouched user:/\n+ user:/b "2"\ncommit 2 by 1\ntouched user:/\n+ user:/a "1"\ncommit 3 by 2\n'
         'touched user:/\n+ user:/c "3"\n', "tried user:/ by 1 front 2 again 2\nspent user:/ by 2 front 2\nhistory 2\n"
         'commit 1 by 2\ntouched user:/\n+ user:/b "2"\ncommit 2 by 1\ntouched user:/\n+ user:/a "1"\n', "bound"),
        ("a try that an own commit blocks", "tried user:/ by 2", "tried user:/ by 1", "merge"),
    ]),
    Case("a merge of several mounts, and keys that none of them owns", {}, """
proc 2 /a p
session 1
get /
session 2
get /
phase
session 1
put user:/a 1
put system:/a 1
set /
phase
session 2
put user:/b 2
put default:/b 2
merge / abort 2
look proc:/a
look default:/b
look system:/a
""", """
phase 1
session 1
got 0 0
session 2
got 0 1
phase 2
session 1
commit 1 aside 0
phase 3
session 2
tried user:/ by 1 front 1 again 1
commit 2 aside 2
found proc:/a "p"
found default:/b "2"
found system:/a "1"
history 2
commit 1 by 1
touched user:/ system:/
+ user:/a "1"
+ system:/a "1"
commit 2 by 2
touched user:/
+ user:/b "2"
end
""", [
        ("the get's keys in the place of those left aside", 'found default:/b "2"', "none", "look"),
        ("keys in proc that are dropped", 'found proc:/a "p"', "none", "look"),
        ("keys left aside that aren't told", "commit 2 aside 2", "commit 2 aside 1", "set"),
        ("a mount that the set doesn't change is merged, too", 'found system:/a "1"', "none", "look"),
        ("a try at a mount that it doesn't change", "tried user:/", "tried system:/", "merge"),
    ]),
    Case("a merge that is refused at its first set", {}, """
session 1
merge user:/ our 9
get user:/
merge user:/ their 1
""", """
phase 1
session 1
refused C01320 not-fetched user:/
got 0 0
same 0 aside 0
history 0
end
""", [
        ("a merge without a get", "refused C01320 not-fetched user:/", "same 0 aside 0", "early"),
        ("a get that a merge makes by itself", "refused C01320 not-fetched user:/",
         "tried user:/ by 1 front 1 again 1\nsame 0 aside 0", "front"),
        ("tries that nothing spent", "same 0 aside 0", "spent user:/ by 1 front 0", "bound"),
    ]),
    Case("a merge that no memory is left for", {}, f"""{BEHIND}put user:/b 2
merge user:/ abort 2
look user:/a
set user:/
""", f"""{BEGUN}tried user:/ by 1 front 1 again 1
memory
none
commit 2 aside 0
{BOTH.replace("+ user:/b", "- user:/a^+ user:/b").replace("^", chr(10))}end
""", [
        ("a working set that is merged", "- user:/a\n", "", "commit"),
        ("a working set that shows what is merged", "memory\nnone", 'memory\nfound user:/a "1"', "look"),
        ("a get that is forgotten", "tried user:/ by 1 front 1 again 1\n", "", "set"),
        ("more tries than are told to be made", "again 1\n", "again 1\ntried user:/ by 2 front 2 again 2\n", "tries"),
    ]),
    Case("a merge that the disk fails", {}, f"""{BEHIND}put user:/b 2
merge user:/ abort 2
look user:/a
set user:/
""", f"""{BEGUN}tried user:/ by 1 front 1 again 1
refused C01100 disk-fault front 1
none
commit 2 aside 0
{BOTH.replace("+ user:/b", "- user:/a^+ user:/b").replace("^", chr(10))}end
""", [
        ("a working set that is merged", "- user:/a\n", "", "commit"),
        ("a working set that shows what is merged", "front 1\nnone", 'front 1\nfound user:/a "1"', "look"),
        ("a fault where no commit would be", "tried user:/ by 1 front 1 again 1\n", "", "set"),
        ("a fault before the get", "disk-fault front 1", "disk-fault front 0", "front"),
    ]),
]
