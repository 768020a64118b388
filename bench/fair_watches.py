"""Fair texts of batches with their turns, for bench/fair.py selftest: those of watches and polls.
"""
from fair_cases import FIRST, TWO_KEYS, Case

THREE = 'commit 1 by 1\ntouched user:/\n+ user:/a "1"\n+ user:/b "2"\n+ user:/c "3"\n'
BOTH = f"{FIRST}commit 2 by 1\ntouched user:/\n+ user:/b \"2\"\n"

CASES = [
    Case("a watch with room for two changes", {}, """
session 2
watch user:/ 2
phase
session 1
get user:/
put user:/a 1
put user:/b 2
put user:/c 3
set user:/
phase
session 2
poll
poll
""", f"""
phase 1
session 2
watch 0
phase 2
session 1
got 0 0
commit 1 aside 0
phase 3
session 2
news 1 missed 1
~ 1 + user:/b
~ 1 + user:/c
news 1 missed 0
history 1
{THREE}end
""", [
        ("missed changes that aren't counted", "missed 1", "missed 0", "poll"),
        ("the first changes kept", "~ 1 + user:/b\n~ 1 + user:/c", "~ 1 + user:/a\n~ 1 + user:/b", "poll"),
        ("more than there is room for", "missed 1\n", "missed 0\n~ 1 + user:/a\n", "poll"),
        ("less than there is room for", "missed 1\n~ 1 + user:/b\n", "missed 2\n", "poll"),
        ("the last first", "~ 1 + user:/b\n~ 1 + user:/c", "~ 1 + user:/c\n~ 1 + user:/b", "poll"),
        ("the same changes again", "news 1 missed 0\n", "news 1 missed 1\n~ 1 + user:/b\n~ 1 + user:/c\n", "poll"),
        ("the same count again", "news 1 missed 0", "news 1 missed 1", "poll"),
        ("a poll that has seen nothing", "news 1 missed 1\n~ 1 + user:/b\n~ 1 + user:/c\n", "news 0 missed 0\n",
         "floor"),
        ("a front beyond the history", "news 1 missed 0", "news 2 missed 0", "front"),
        ("a watch of what is to come", "watch 0", "watch 1", "ceiling"),
        ("a removal of what is there", "~ 1 + user:/b", "~ 1 - user:/b", "poll"),
        ("another commit", "~ 1 + user:/b", "~ 2 + user:/b", "poll"),
        ("another name", "~ 1 + user:/b", "~ 1 + user:/d", "poll"),
        ("a poll that is no answer", "news 1 missed 0", "no-watch", "poll"),
        ("a watch that is no answer", "watch 0", "no-watch", "watch"),
        ("a change too much", "~ 1 + user:/c\n", "~ 1 + user:/c\n~ 1 + user:/c\n", "poll"),
        ("a poll without an answer", "news 1 missed 0\n", "", "text"),
    ]),
    Case("nothing is watched", {}, """
session 1
poll
get user:/
""", """
phase 1
session 1
no-watch
got 0 0
history 0
end
""", [
        ("news of nothing", "no-watch", "news 0 missed 0", "poll"),
        ("no answer", "no-watch\n", "", "poll"),
    ]),
    Case("a second watch takes the place of the first", {}, """
session 1
watch user:/ 9
get user:/
put user:/a 1
set user:/
watch system:/ 1
put user:/b 2
set user:/
poll
watch user:/ 9
poll
""", f"""
phase 1
session 1
watch 0
got 0 0
commit 1 aside 0
watch 1
commit 2 aside 0
news 2 missed 0
watch 2
news 2 missed 0
history 2
{BOTH}end
""", [
        ("the first watch goes on", "news 2 missed 0\nwatch 2",
         "news 2 missed 0\n~ 1 + user:/a\n~ 2 + user:/b\nwatch 2", "poll"),
        ("a watch of what was before", "watch 1\n", "watch 0\n", "front"),
        ("a watch that tells what was before", "watch 2\nnews 2 missed 0\n",
         "watch 2\nnews 2 missed 0\n~ 2 + user:/b\n", "poll"),
        ("a watch before an own commit", "watch 2\n", "watch 1\n", "front"),
    ]),
    Case("an own commit is told", TWO_KEYS, """
session 1
watch user:/a 1
get user:/
put user:/a 3
put user:/a/below 4
del user:/b
set user:/
poll
del user:/a
set user:/
poll
""", """
phase 1
session 1
watch 0
got 0 2
commit 1 aside 0
news 1 missed 1
~ 1 + user:/a/below
commit 2 aside 0
news 2 missed 0
~ 2 - user:/a
history 2
commit 1 by 1
touched user:/
+ user:/a "3"
+ user:/a/below "4"
- user:/b
commit 2 by 1
touched user:/
- user:/a
end
""", [
        ("own commits left out", "news 1 missed 1\n~ 1 + user:/a/below\n", "news 1 missed 0\n", "poll"),
        ("the name itself left out", "missed 1", "missed 0", "poll"),
        ("names beside it", "missed 1", "missed 2", "poll"),
        ("a removal left out", "~ 2 - user:/a\n", "", "poll"),
        ("a removal told as an entry", "~ 2 - user:/a", "~ 2 + user:/a", "poll"),
        ("told before it was made", "news 1 missed 1\n~ 1 + user:/a/below\ncommit 2",
         "news 2 missed 2\n~ 2 - user:/a\ncommit 2", "front"),
    ]),
    Case("a parent without a namespace is its path in each of them", {}, """
session 1
watch /a 9
phase
session 2
get /
put user:/a 1
put user:/ab 2
put user:/a/b 3
put system:/a/c 4
put dir:/b/a 5
put dir:/a 6
set /
phase
session 1
poll
""", """
phase 1
session 1
watch 0
phase 2
session 2
got 0 0
commit 1 aside 0
phase 3
session 1
news 1 missed 0
~ 1 + dir:/a
~ 1 + user:/a
~ 1 + user:/a/b
~ 1 + system:/a/c
history 1
commit 1 by 2
touched dir:/ user:/ system:/
+ dir:/a "6"
+ dir:/b/a "5"
+ user:/a "1"
+ user:/a/b "3"
+ user:/ab "2"
+ system:/a/c "4"
end
""", [
        ("one namespace alone", "~ 1 + dir:/a\n", "", "poll"),
        ("a name that only begins alike", "~ 1 + system:/a/c\n", "~ 1 + user:/ab\n~ 1 + system:/a/c\n", "poll"),
        ("a path that stands further down", "~ 1 + user:/a\n", "~ 1 + dir:/b/a\n~ 1 + user:/a\n", "poll"),
        ("what is below left out", "~ 1 + system:/a/c\n", "", "poll"),
        ("nothing told, for want of a namespace",
         "~ 1 + dir:/a\n~ 1 + user:/a\n~ 1 + user:/a/b\n~ 1 + system:/a/c\n", "", "poll"),
    ]),
    Case("in one phase a poll may stand before another's commit", {}, """
session 1
watch user:/ 9
poll
phase
session 1
poll
poll
session 2
get user:/
put user:/a 1
set user:/
""", """
phase 1
session 1
watch 0
news 0 missed 0
phase 2
session 1
news 0 missed 0
news 1 missed 0
~ 1 + user:/a
session 2
got 0 0
commit 1 aside 0
history 1
commit 1 by 2
touched user:/
+ user:/a "1"
end
""", [
        ("a change that is never told", "~ 1 + user:/a\n", "", "poll"),
        ("a front that falls", "news 0 missed 0\nnews 1 missed 0\n~ 1 + user:/a\n",
         "news 1 missed 0\n~ 1 + user:/a\nnews 0 missed 0\n", "front"),
        ("a poll of a phase that sees the next", "news 0 missed 0\nphase 2",
         "news 1 missed 0\n~ 1 + user:/a\nphase 2", "ceiling"),
    ]),
    Case("no memory for a watch and for a poll", {}, """
session 1
watch user:/ 9
get user:/
put user:/a 1
set user:/
watch system:/ 9
poll
poll
""", f"""
phase 1
session 1
watch 0
got 0 0
commit 1 aside 0
memory
memory
news 1 missed 0
~ 1 + user:/a
history 1
{FIRST}end
""", [
        ("a watch that was made without memory", "~ 1 + user:/a\n", "", "poll"),
        ("a poll that lost its changes", "memory\nmemory\nnews 1 missed 0\n~ 1 + user:/a\n",
         "memory\nmemory\nnews 1 missed 1\n", "poll"),
    ]),
]
