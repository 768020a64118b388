#!/usr/bin/env bash
# Tries on the real program what no contract can say of files and streams: closed streams, held and removed locks, runs
# at one time, a folder that is made twice, rights, links, folders of others, full and read-only file systems, fifos,
# devices, sockets and folders in the place of files, and what hostile files cost. Puts a line for each on err, prints
# how many there are and those with figures, and ends with 1 where one isn't as it must be. Wants build/kdb
# (first-use.sh makes it), flock and setpriv (util-linux), python3, and strace where it is installed; what is tried as
# another user wants root. It takes some two minutes. Not part of the gate.
set -u
cd "$(dirname "$0")/.."
. bench/words.sh
top=$PWD
put edge "$@"
program
chmod 755 "$work"
cp "$kdb" "$work/kdb"
chmod 755 "$work/kdb"
kdb=$work/kdb
wrong=0
tried=0
unset KDB_DIR

# told WHAT IS WANTED: compares, and puts a line on err
told() {
  tried=$((tried + 1))
  if [ "$2" = "$3" ]; then
    printf 'as it must be  %s: %s\n' "$1" "$2" >&2
  else
    wrong=$((wrong + 1))
    printf 'WRONG          %s: %s, and not %s\n' "$1" "$2" "$3" >&2
  fi
}

# told_with FIGURES WHAT IS WANTED: the same, and a line of the section, with what was measured
told_with() {
  told "${@:2}"
  figures+=("- ${2^}: $3 ($1).")
}
figures=()

# not_tried WHAT: a line of the section, too
not_tried() {
  printf 'not tried      %s\n' "$1" >&2
  figures+=("- Not tried: $1.")
}

# fresh: a new folder to run in, with a store of one key
fresh() {
  rm -rf "$work/run"
  mkdir "$work/run"
  cd "$work/run" || exit 1
  "$kdb" set user:/sw/a 1 >/dev/null
}

# err_of STATUS: the status and the line that was put on err
err_of() { echo "$1 $(cat "$work/err")"; }

disk_fault='74 kdb: C01100 disk-fault'

# Closed streams.
fresh
cp .kdb/user.ecf "$work/user.ecf"
"$kdb" ls user:/ 2>"$work/err" >&-
told 'ls with out closed' "$(err_of $?)" '74 kdb: C01100 write-fault'
"$kdb" get user:/sw/none 2>&-
told 'a refusal with err closed' $? 74
"$kdb" ls user:/ >&- 2>&-
told 'ls with out and err closed' $? 74
"$kdb" ls user:/ <&- >&- 2>&-
told 'ls with all three closed' $? 74
told 'get with input closed' "$("$kdb" get user:/sw/a <&-)" 1
told 'the lock after all that' "$(stat -c %s .kdb/.lock) bytes" '0 bytes'
cmp -s .kdb/user.ecf "$work/user.ecf"
told 'the files after all that' $? 0

# Two runs at one time.
failed=0
for _ in $(seq 300); do
  "$kdb" get user:/sw/a >/dev/null & first=$!
  "$kdb" get user:/sw/a >/dev/null & second=$!
  wait $first || failed=$((failed + 1))
  wait $second || failed=$((failed + 1))
done
told '300 times a get beside a get' "$failed failed" '0 failed'
failed=0
for i in $(seq 100); do
  "$kdb" set "user:/first/k$i" "$i" >/dev/null & first=$!
  "$kdb" set "user:/second/k$i" "$i" >/dev/null & second=$!
  wait $first || failed=$((failed + 1))
  wait $second || failed=$((failed + 1))
done
told '100 times a set beside a set' "$failed failed, $("$kdb" ls user:/ | wc -l) keys" '0 failed, 201 keys'

# A lock that is held.
flock .kdb/.lock sleep 1 &
sleep 0.2
told 'a get while the lock is held for a second' "$("$kdb" get user:/sw/a)" 1
wait
flock .kdb/.lock sleep 14 & holder=$!
sleep 0.2
begun=$(date +%s)
"$kdb" get user:/sw/a 2>"$work/err"
told 'a get while the lock is held for long' "$(err_of $?)" "$disk_fault"
waited=$(($(date +%s) - begun))
[ $waited -ge 10 ] && [ $waited -le 13 ]
told "that it waited ten seconds ($waited)" $? 0
wait $holder

# Two first sets at one time: what is acknowledged stays.
lost=0 refused=0
for i in $(seq 200); do
  rm -rf "$work/run"
  mkdir "$work/run"
  cd "$work/run" || exit 1
  "$kdb" set user:/first "$i" >/dev/null 2>"$work/err1" & first=$!
  "$kdb" set user:/second "$i" >/dev/null 2>"$work/err2" & second=$!
  for it in $first:1:first $second:2:second; do
    IFS=: read -r job number name <<<"$it"
    if wait "$job"; then acknowledged[number]=$name; else
      acknowledged[number]=
      refused=$((refused + 1))
      [ "$(cat "$work/err$number")" = 'kdb: C01100 disk-fault' ] || lost=$((lost + 1))
    fi
  done
  for name in ${acknowledged[1]} ${acknowledged[2]}; do
    [ "$("$kdb" get "user:/$name")" = "$i" ] || lost=$((lost + 1))
  done
done
told_with "$refused of 400 sets refused" '200 times two first sets at one time' "$lost lost" '0 lost'

# What is no regular file.
for name in user.ecf .lock; do
  for kind in fifo socket device folder link; do
    fresh
    mv ".kdb/$name" "$work/kept"
    case $kind in
      fifo) mkfifo ".kdb/$name" ;;
      socket) (cd .kdb && python3 -c 'import socket, sys; socket.socket(socket.AF_UNIX).bind(sys.argv[1])' "$name") ;;
      device) ln -s /dev/zero ".kdb/$name" ;;
      folder) mkdir ".kdb/$name" ;;
      link) ln -s "$work/kept" ".kdb/$name" ;;
    esac
    for words in 'get user:/sw/a' 'set user:/sw/a 1'; do
      # shellcheck disable=SC2086
      out=$(timeout 5 "$kdb" $words 2>"$work/err")
      status=$?
      if [ $kind = link ]; then
        told "${words%% *} with a link to a file as $name" "$(err_of $status)" '0 '
      else
        told "${words%% *} with a $kind as $name" "$(err_of $status)$out" "$disk_fault"
      fi
    done
  done
done

# Rights.
if [ "$(id -u)" = 0 ]; then
  other() { setpriv --reuid=65534 --regid=65534 --clear-groups "$@"; }
  fresh
  rm .kdb/.lock
  (umask 077 && "$kdb" get user:/sw/a >/dev/null)
  told 'the rights of a lock that was made under umask 077' "$(stat -c %a .kdb/.lock)" 666
  told 'a get of another user then' "$(other "$kdb" get user:/sw/a)" 1
  chmod 644 .kdb/.lock
  told 'a get of another user who may only read the lock' "$(other "$kdb" get user:/sw/a)" 1
  other "$kdb" set user:/sw/a 2 2>"$work/err"
  told 'a set of another user' "$(err_of $?)" "$disk_fault"
  rm .kdb/.lock
  told 'a get of another user where there is no lock' "$(other "$kdb" get user:/sw/a)" 1
  told 'the locks after it' "$(ls -A .kdb | grep -c lock)" 0
  # The owner's sets overtake reads that can't lock.
  bad=0 looked=0
  long=$(head -c 60000 /dev/zero | tr '\0' v)
  for _ in $(seq 100); do
    rm -f .kdb/.lock
    "$kdb" set user:/sw/b "$long" >/dev/null & job=$!
    other "$kdb" get user:/sw/a >/dev/null 2>"$work/err"
    status=$?
    wait $job || bad=$((bad + 1))
    [ $status = 0 ] && looked=$((looked + 1))
    [ $status = 0 ] || [ "$(err_of $status)" = "$disk_fault" ] || bad=$((bad + 1))
    "$kdb" rm user:/sw/b
  done
  told_with "$looked got the value" '100 times a get without a lock beside a set' "$bad bad" '0 bad'
else
  not_tried "rights, since this isn't root"
fi

# Removed locks: what is acknowledged stays, though someone takes the lock's file away again and again.
fresh
(while :; do rm -f .kdb/.lock; sleep 0.01; done) & remover=$!
worker() {
  local i
  for i in $(seq 60); do
    "$kdb" set "user:/w$1/k$i" "$i" >/dev/null 2>&1 && echo "user:/w$1/k$i $i" >>"$work/acknowledged.$1"
  done
}
rm -f "$work"/acknowledged.*
workers=
for i in 1 2 3 4; do worker $i & workers="$workers $!"; done
# shellcheck disable=SC2086
wait $workers
kill $remover
wait $remover 2>/dev/null
lost=0
while read -r name value; do
  [ "$("$kdb" get "$name")" = "$value" ] || lost=$((lost + 1))
done < <(cat "$work"/acknowledged.*)
told_with "$(cat "$work"/acknowledged.* | wc -l) acknowledged" \
  '240 sets of four workers, with the lock removed 100 times a second' "$lost lost" '0 lost'

# A reader that takes nothing, as a pager does, keeps no other run out.
fresh
for i in $(seq 3000); do printf '$key string 35 1\nlong/name/of/a/key/number/%010d\nv\n' "$i"; done >"$work/records"
{
  printf 'kdbOpen 2\n$key string 4 1\nsw/a\n1\n'
  sed 's/^\$key string 35/$key string 36/' "$work/records"
  printf '$end\n'
} >.kdb/user.ecf
"$kdb" ls user:/ | { sleep 3; cat >/dev/null; } & pager=$!
sleep 0.5
begun=$(date +%s%N)
"$kdb" get user:/sw/a >/dev/null
status=$?
[ $((($(date +%s%N) - begun) / 1000000)) -lt 1500 ] && soon='at once'
told 'a get while another run waits for its reader' "$status, ${soon-}" '0, at once'
wait $pager

# The folder that a variable names.
fresh
mkdir "$work/run/elsewhere"
told 'a get with KDB_DIR' "$(cd / && KDB_DIR=$work/run "$kdb" get user:/sw/a)" 1
told 'a get with an empty KDB_DIR' "$(KDB_DIR='' "$kdb" get user:/sw/a)" 1
KDB_DIR=$work/run/elsewhere "$kdb" get user:/sw/a 2>"$work/err"
told 'a get in a folder without a store' "$(err_of $?)" '11 kdb: not found: user:/sw/a'
KDB_DIR=$work/run/elsewhere "$kdb" set user:/b 2 >/dev/null
told 'a first set there' "$?, $(KDB_DIR=$work/run/elsewhere "$kdb" get user:/b)" '0, 2'
KDB_DIR=$work/run/nowhere "$kdb" get user:/sw/a 2>"$work/err"
told 'a get where KDB_DIR is not there' "$(err_of $?)" "$disk_fault"
KDB_DIR=$work/run/nowhere "$kdb" set user:/sw/a 1 2>"$work/err"
told 'a set where KDB_DIR is not there' "$(err_of $?), $(ls "$work/run")" "$disk_fault, elsewhere"
KDB_DIR=$work/run/nowhere "$kdb" frob 2>"$work/err"
told 'an unknown command where KDB_DIR is not there' "$(err_of $?)" '4 kdb: unknown command frob'

# open_gate FOLDER FILE TEXT: a journal there in which an entry waits by which user.ecf holds the text: the file journal2,
# or journal, as a former program left it
open_gate() {
  PYTHONPATH=$top/bench python3 -c '
import sys
from fair_files import former_of, journal_of
entry = {"user.ecf": sys.argv[3].encode()}
held = former_of(entry) if sys.argv[2] == "journal" else journal_of(["user.ecf"], entry)
open(f"{sys.argv[1]}/{sys.argv[2]}", "wb").write(held)' "$1" "$2" "$3"
}
entry=$(printf 'kdbOpen 2\n$key string 4 1\nsw/a\n7\n$end\n.')
entry=${entry%.}

# Folders that the executable of a former program left, closed, open or cut off (bench/former_folders.txt).
told 'folders of a former program' "$(python3 "$top/bench/former_folders.py" "$kdb" "$work/former")" '13 of 13'

if [ "$(id -u)" = 0 ]; then
  # Links that lead elsewhere, in the folder of another user.
  theirs() {
    rm -rf "$work/run" "$work/target"
    mkdir "$work/run" "$work/run/.kdb"
    chown 65534:65534 "$work/run" "$work/run/.kdb"
    cd "$work/run" || exit 1
    echo mine >"$work/target"
  }
  theirs
  other ln -s "$work/target" .kdb/user.ecf
  open_gate .kdb journal2 "$entry"
  "$kdb" get user:/nothing 2>"$work/err"
  told "a get of root over another's link in the place of a file" "$(err_of $?), $(cat "$work/target")" \
    "$disk_fault, mine"
  if command -v strace >/dev/null; then
    strace -f -o "$work/calls" "$kdb" get user:/nothing 2>/dev/null
    told 'its calls that write, cut or make something' \
      "$(grep -c '^[0-9]* *\(pwrite64\|ftruncate\|fchmod\|fchown\)(' "$work/calls")" 0
  else
    not_tried 'the calls over a refused link, since strace is not installed'
  fi
  theirs
  other ln -s "$work/target" .kdb/journal2
  "$kdb" set user:/sw/a 1 2>"$work/err"
  told "a set of root over another's link in the place of the journal" "$(err_of $?), $(cat "$work/target")" \
    "$disk_fault, mine"
  theirs
  other ln -s "$work/made" .kdb/user.ecf
  "$kdb" set user:/sw/a 1 >/dev/null 2>"$work/err"
  told "a set of root over another's link that leads nowhere" "$(err_of $?)$([ -e "$work/made" ] && echo made)" '0 '
  "$kdb" get user:/sw/a 2>"$work/err"
  told 'a get behind that, while the link is there' "$(err_of $?)" "$disk_fault"
  rm .kdb/user.ecf
  told 'a get once it is gone' "$("$kdb" get user:/sw/a)" 1
  theirs
  rm -rf .kdb "$work/mine"
  mkdir "$work/mine"
  other ln -s "$work/mine" .kdb
  "$kdb" set user:/sw/a 1 2>"$work/err"
  told "a set of root over another's link in the place of the folder" \
    "$(err_of $?), $(ls "$work/mine" | grep -v lock)" "$disk_fault, "
  theirs
  other touch "$work/run/file"
  other ln -s "$work/run/file" .kdb/user.ecf
  "$kdb" set user:/sw/a 1 >/dev/null 2>"$work/err"
  told "a set of root over another's link to a file of theirs" "$(err_of $?), $(head -n 1 "$work/run/file")" \
    '0 , kdbOpen 2'
  theirs
  ln -s "$work/target" .kdb/user.ecf
  printf '' >"$work/target"
  "$kdb" set user:/sw/a 1 >/dev/null 2>"$work/err"
  told 'a set of root over a link of its own' "$(err_of $?), $(head -n 1 "$work/target")" '0 , kdbOpen 2'

  # Root in the folder of another user, and several users of one group.
  rm -rf "$work/run"
  mkdir "$work/run"
  chown 65534:65534 "$work/run"
  cd "$work/run" || exit 1
  "$kdb" set user:/sw/a 1 >/dev/null
  told 'the owners of what root made there' "$(stat -c %u .kdb .kdb/* | sort -u)" 65534
  other "$kdb" set user:/sw/a 2 >/dev/null 2>"$work/err"
  told 'a set of the owner behind the first one of root' "$(err_of $?), $("$kdb" get user:/sw/a)" '0 , 2'
  member() { setpriv --reuid="$1" --regid=60000 --clear-groups "${@:2}"; }
  rm -rf "$work/run"
  mkdir "$work/run"
  chgrp 60000 "$work/run"
  chmod 2775 "$work/run"
  cd "$work/run" || exit 1
  (umask 022 && member 60001 "$kdb" set user:/sw/a 1 >/dev/null)
  member 60002 "$kdb" set user:/sw/a 2 >/dev/null 2>"$work/err"
  told 'a set of the second member of a group' "$(err_of $?), $("$kdb" get user:/sw/a)" '0 , 2'

  # Who may only read, where an entry waits, or a former journal is there.
  for journal in journal2 journal; do
    fresh
    chmod 755 .kdb
    open_gate .kdb $journal "$entry"
    told "a get of another user over an open $journal" "$(other "$kdb" get user:/sw/a)" 7
    other "$kdb" set user:/sw/a 8 2>"$work/err"
    told 'a set of that user' "$(err_of $?)" "$disk_fault"
    told 'the file and the gate behind that' "$(sed -n 4p .kdb/user.ecf) $(head -c 1 .kdb/$journal | od -An -tu1)" '1    1'
    told 'a get of the owner then' "$("$kdb" get user:/sw/a)$(sed -n 4p .kdb/user.ecf)" 77
  done
  told 'what is left of the former journal' "$(od -An -tu1 .kdb/journal)" '   0'
  printf '\0\0\0\0\0\0' >.kdb/journal
  told 'a get of another user over a closed one' "$(other "$kdb" get user:/sw/a), $(wc -c <.kdb/journal)" '7, 6'
  mkdir "$work/seen"
  if mount --bind "$work/run" "$work/seen" 2>/dev/null && mount -o remount,bind,ro "$work/seen" 2>/dev/null; then
    open_gate .kdb journal2 "$(printf 'kdbOpen 2\n$key string 4 1\nsw/a\n9\n$end\n.' | head -c -1; echo)"
    told 'a get on a read-only mount over an open gate' "$(cd "$work/seen" && "$kdb" get user:/sw/a)" 9
    (cd "$work/seen" && "$kdb" set user:/sw/a 8 2>"$work/err")
    told 'a set there' "$(err_of $?)" "$disk_fault"
    umount "$work/seen"
  else
    not_tried 'a read-only mount, since none can be made here'
  fi

  # Secrets: nobody reads the journal who may not read the folder.
  fresh
  rm -rf .kdb
  mkdir .kdb
  chmod 711 .kdb
  "$kdb" set user:/secret/pw hunter2 >/dev/null
  other cat .kdb/journal2 >/dev/null 2>&1
  told "another user's look at the journal of a folder that only its owner may read" $? 1

  # A file system of 64 KiB.
  rm -rf "$work/small"
  mkdir "$work/small"
  if mount -t tmpfs -o size=64k tmpfs "$work/small" 2>/dev/null; then
    cd "$work/small" || exit 1
    "$kdb" set user:/keep "$(head -c 3000 /dev/zero | tr '\0' v)" >/dev/null
    head -c 100000 /dev/zero >filler 2>/dev/null
    "$kdb" set system:/a 1 >/dev/null 2>"$work/err"
    said=$?
    rm filler
    told "what a full file system leaves of a set that ended with $said, once there is room" \
      "$("$kdb" get system:/a 2>/dev/null), $("$kdb" get user:/keep | wc -c)" "$([ $said = 0 ] && echo 1), 3001"
    cd / || exit 1
    umount "$work/small"
  else
    not_tried 'a small file system, since none can be made here'
  fi
else
  not_tried "links and folders of others, since this isn't root"
fi

# Hostile files: what is too heavy is not kept, and metadata may stand in any order.
# cost WORDS: runs the program; its processor milliseconds and the most MiB of memory that it took
cost() {
  python3 -c '
import resource, subprocess, sys
subprocess.run(sys.argv[1:], stdout=subprocess.DEVNULL, stderr=subprocess.DEVNULL)
use = resource.getrusage(resource.RUSAGE_CHILDREN)
print(round((use.ru_utime + use.ru_stime) * 1000), use.ru_maxrss // 1024)' "$@"
}
fresh
for i in $(seq 59); do "$kdb" mount "m$i.ecf" "user:/m$i"; done
python3 -c '
records = "".join(f"$key string 2 65000\n{k:02}\n{65000 * chr(118)}\n" for k in range(16))
for i in range(1, 60):
    with open(f".kdb/m{i}.ecf", "w") as f:
        f.write(f"kdbOpen 2\n{records}$end\n")'
read -r milliseconds mebibytes < <(cost "$kdb" mounts)
[ "$mebibytes" -le 96 ] && memory='at most 96 MiB'
told_with "$milliseconds ms of processor time, $mebibytes MiB" '`mounts` over 59 files of 1 MiB' \
  "${memory-}" 'at most 96 MiB'
"$kdb" ls user:/m59 2>"$work/err" >/dev/null
told 'a get past the heavy files' "$(err_of $? | cut -d' ' -f1-4)" '5 kdb: C01100 too-heavy'
fresh
for order in rising falling; do
  python3 -c '
import sys
names = [f"{i:05}" for i in range(55000)]
names = names if sys.argv[1] == "rising" else names[::-1]
records = "".join(f"$meta 5 1\n{name}\nv\n" for name in names)
with open(".kdb/user.ecf", "w") as f:
    f.write(f"kdbOpen 2\n$key string 4 1\nsw/a\n1\n{records}$end\n")' $order
  read -r taken _ < <(cost "$kdb" get user:/sw/a)
  [ $order = rising ] && rising=$taken
done
[ "$taken" -le $((5 * rising + 10)) ] && longer='at most 5 times as long'
told_with "$taken ms, rising $rising ms" 'a get past 55,000 metadata in falling order, beside rising ones' \
  "${longer-}" 'at most 5 times as long'

echo "$((tried - wrong)) of $tried trials as it must be; those with figures:"
echo
printf '%s\n' "${figures[@]}"
[ $wrong = 0 ]
