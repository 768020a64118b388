"""Fair texts of batches with their turns, for bench/fair.py selftest: those of mounts that count conflicts by key.
"""
from fair_cases import FIRST, Case
from fair_formats import dump_of
from fair_scripts import key, relative_keys

KEYED = {
    "elektra.ecf": dump_of(relative_keys(key("/mountpoints/user:\\/sw/path", "sw.ecf"),
                                         key("/mountpoints/user:\\/sw/conflicts", "keys"))),
}
SW = "touched user:/sw\n"
ONE = f'commit 1 by 1\n{SW}+ user:/sw/a "1"\n'
TWO = f'commit 2 by 2\n{SW}+ user:/sw/b "2"\n'
THREE = f'commit 3 by 1\n{SW}+ user:/sw/c "3"\n'

# both sessions got before the first of them sets
BEGUN = """
session 1
get user:/sw
session 2
get user:/sw
phase
session 1
put user:/sw/a 1
set user:/sw
"""
TOLD = """
phase 1
session 1
got 0 0
session 2
got 0 0
phase 2
session 1
commit 1 aside 0
phase 3
session 2
"""

CASES = [
    Case("conflicts by key", KEYED, f"""{BEGUN}phase
session 2
put user:/sw/b 2
set user:/sw
phase
session 1
put user:/sw/c 3
set user:/sw
put user:/sw/b 4
set user:/sw
get user:/sw
look user:/sw/b
""", f"""{TOLD}commit 2 aside 0
phase 4
session 1
commit 3 aside 0
conflict user:/sw by 2 front 3
got 3 3
found user:/sw/b "2"
history 3
{ONE}{TWO}{THREE}end
""", [
        ("another key that blocks", f"commit 2 aside 0\nphase 4\nsession 1\ncommit 3 aside 0\n"
         f"conflict user:/sw by 2 front 3\ngot 3 3\nfound user:/sw/b \"2\"\nhistory 3\n{ONE}{TWO}{THREE}",
         f"conflict user:/sw by 1 front 1\nphase 4\nsession 1\ncommit 2 aside 0\ncommit 3 aside 0\ngot 3 3\n"
         f"found user:/sw/b \"4\"\nhistory 3\n{ONE}{THREE.replace('3 by', '2 by')}"
         f"commit 3 by 1\n{SW}+ user:/sw/b \"4\"\n", "set"),
        ("another key that blocks behind an own commit", f"commit 3 aside 0\nconflict user:/sw by 2 front 3\ngot 3 3\n"
         f"found user:/sw/b \"2\"\nhistory 3\n{ONE}{TWO}{THREE}", f"conflict user:/sw by 2 front 2\n"
         f"conflict user:/sw by 2 front 2\ngot 2 2\nfound user:/sw/b \"2\"\nhistory 2\n{ONE}{TWO}", "set"),
        ("an own commit that blocks", "conflict user:/sw by 2 front 3", "conflict user:/sw by 1 front 3", "set"),
        ("a front that a commit moves", f"conflict user:/sw by 2 front 3\ngot 3 3\nfound user:/sw/b \"2\"\nhistory 3\n"
         f"{ONE}{TWO}{THREE}", f"commit 4 aside 0\ngot 4 3\nfound user:/sw/b \"4\"\nhistory 4\n{ONE}{TWO}{THREE}"
         f"commit 4 by 1\n{SW}+ user:/sw/b \"4\"\n", "set"),
        ("what another stored, taken back by a text of its own", TWO, TWO.replace("+", "- user:/sw/a\n+"), "commit"),
        ("what another stored is lost", "got 3 3", "got 3 2", "get"),
        ("all that is new is told as a change", THREE, THREE.replace("+", '+ user:/sw/b "2"\n+'), "commit"),
        ("an own key told again", THREE, THREE.replace("+", '+ user:/sw/a "1"\n+'), "commit"),
    ]),
    Case("the same key, whatever its value", KEYED, f"""{BEGUN}phase
session 2
put user:/sw/a 1
set user:/sw
put user:/a 1
set user:/
set user:/sw
""", f"""{TOLD}conflict user:/sw by 1 front 1
refused C01320 not-fetched user:/
conflict user:/sw by 1 front 1
history 1
{ONE}end
""", [
        ("the same value that is no conflict", f"conflict user:/sw by 1 front 1\nrefused C01320 not-fetched user:/\n"
         f"conflict user:/sw by 1 front 1\nhistory 1\n{ONE}", f"commit 2 aside 0\n"
         f"refused C01320 not-fetched user:/\nsame 2 aside 1\nhistory 2\n{ONE}"
         f"{ONE.replace('commit 1 by 1', 'commit 2 by 2')}", "set"),
        ("the same value that is the same", "conflict user:/sw by 1 front 1\nrefused", "same 1 aside 0\nrefused", "set"),
    ]),
    Case("an own commit, and another's of the same keys before it", KEYED, f"""{BEGUN}put user:/sw/a 2
set user:/sw
phase
session 2
put user:/sw/b 2
set user:/sw
set user:/sw
del user:/sw/b
set user:/sw
""", f"""{TOLD.replace('phase 3', 'commit 2 aside 0^phase 3').replace('^', chr(10))}commit 3 aside 0
same 3 aside 0
commit 4 aside 0
history 4
{ONE}commit 2 by 1
{SW}+ user:/sw/a "2"
{TWO.replace('commit 2', 'commit 3')}commit 4 by 2
{SW}- user:/sw/b
end
""", [
        ("a working set without its own commit", "same 3 aside 0", "conflict user:/sw by 3 front 3", "set"),
        ("a working set with another's", "- user:/sw/b", "- user:/sw/a\n- user:/sw/b", "commit"),
        ("a removal that another's commit blocks", "commit 4 aside 0\nhistory 4", "conflict user:/sw by 1 front 3\nhistory 4",
         "own"),
    ]),
    Case("a mount by key beside one by its backend", KEYED, """
session 1
get user:/
session 2
get user:/
session 3
get user:/
phase
session 1
put user:/a 1
put user:/sw/a 1
set user:/
phase
session 2
put user:/sw/b 2
set user:/
phase
session 3
put user:/x 3
put user:/sw/b 3
set user:/
set user:/sw
del user:/sw/b
put user:/sw/c 3
set user:/sw
""", f"""
phase 1
session 1
got 0 0
session 2
got 0 0
session 3
got 0 0
phase 2
session 1
commit 1 aside 0
phase 3
session 2
commit 2 aside 0
phase 4
session 3
conflict user:/ by 1 front 2
conflict user:/sw by 2 front 2
commit 3 aside 1
history 3
{FIRST.replace("user:/^".replace("^", chr(10)), "user:/ user:/sw^".replace("^", chr(10)))}+ user:/sw/a "1"
{TWO}{THREE.replace("3 by 1", "3 by 3")}end
""", [
        ("the higher mount of two", "conflict user:/ by 1 front 2", "conflict user:/sw by 2 front 2", "set"),
        ("another key of the mount by its backend", "conflict user:/ by 1 front 2\nconflict user:/sw by 2 front 2",
         "conflict user:/sw by 2 front 2\nconflict user:/sw by 2 front 2", "set"),
        ("a commit of another key", "conflict user:/sw by 2", "conflict user:/sw by 1", "set"),
    ]),
    Case("a merge behind another's commit of the same key", KEYED, f"""{BEGUN}phase
session 2
put user:/sw/a 2
put user:/sw/b 2
merge user:/sw our 2
undo 1
undo 2
""", f"""{TOLD}tried user:/sw by 1 front 1 again 1
commit 2 aside 0
refused C02000 overtaken user:/sw/a by 2 front 2
commit 3 aside 0
history 3
{ONE}commit 2 by 2
{SW}+ user:/sw/a "2"
+ user:/sw/b "2"
commit 3 by 2
{SW}+ user:/sw/a "1"
- user:/sw/b
end
""", [
        ("a try left out", "tried user:/sw by 1 front 1 again 1\n", "", "set"),
        ("a merge that conflicts with itself", "commit 2 aside 0\nrefused", "merge-conflict user:/sw/a\nrefused", "own"),
    ]),
]
