#!/usr/bin/env bash
# Steps a second of a batch of 1, 2, 4, 8, 16 and 32 sessions, on the disk of the temporary folder and in memory, each
# session at a mount of its own, all at one mount and all at one that counts conflicts by key, beside as many runs of
# the single command; commits a second where all of them merge at one mount; polls a second of one that watches beside
# 31 that set; and the greatest generated run: the best of three runs. A word stands for the count of sets, 512 without
# one. Wants build/kdb (first-use.sh makes it). Not part of the gate.
set -eu
cd "$(dirname "$0")/.."
. bench/words.sh
put batch "$@"
program
sets=${1:-512}
# What lies in memory goes with the script, too.
memory=$(mktemp -d -p /dev/shm)
trap 'rm -rf "$work" "$memory"' EXIT
[ "$(stat -f -c %T "$memory")" = tmpfs ] || { echo "/dev/shm is not in memory" >&2; exit 1; }

# begin FOLDER: a store with 32 mounts, and one that counts by key; and a script that brings it back to that
begin() {
  for number in $(seq 32); do
    KDB_DIR=$1 "$kdb" mount "s$number.ecf" "user:/s$number"
  done
  KDB_DIR=$1 "$kdb" mount -k by_key.ecf user:/by_key
  mv "$1/.kdb" "$1/begun"
  printf 'rm -rf %s/.kdb\ncp -r %s/begun %s/.kdb\n' "$1" "$1" "$1" >"$1/back.sh"
}

# script SESSIONS KIND: so many sets, each behind a get and a put, each session at its own mount, all at the first one
# or all at the one by key
script() {
  awk -v sessions="$1" -v kind="$2" -v sets="$sets" 'BEGIN {
    for (session = 1; session <= sessions; session++) {
      print "session " session
      mount = kind == "by_key" ? "user:/by_key" : "user:/s" (kind == "own" ? session : 1)
      for (turn = session; turn <= sets; turn += sessions)
        printf "get %s\nput %s/key%d %d\nset %s\n", mount, mount, session, turn, mount
    }
  }'
}

# merges SESSIONS: so many merged sets at one mount, each behind a put of a key of its session
merges() {
  awk -v sessions="$1" -v sets="$sets" 'BEGIN {
    for (session = 1; session <= sessions; session++) {
      printf "session %d\nget user:/s1\n", session
      for (turn = session; turn <= sets; turn += sessions)
        printf "put user:/s1/key%d %d\nmerge user:/s1 our 100000\n", session, turn
    }
  }'
}

# watched WRITERS POLLS: so many sets, each session at its own mount, and a session that polls beside them, and once
# behind them all
watched() {
  awk -v writers="$1" -v polls="$2" -v sets="$sets" 'BEGIN {
    print "session 32\nwatch user:/ 4096\nphase\nsession 32"
    for (turn = 0; turn < polls; turn++) print "poll"
    for (session = 1; session <= writers; session++) {
      print "session " session
      mount = "user:/s" session
      for (turn = session; turn <= sets; turn += writers)
        printf "get %s\nput %s/key%d %d\nset %s\n", mount, mount, session, turn, mount
    }
    print "phase\nsession 32\npoll"
  }'
}

# heard FOLDER SCRIPT: how many changes the polls of a script tell; each change of a set is told or counted
heard() {
  sh "$1/back.sh"
  KDB_DIR=$1 "$kdb" batch <"$2" | awk '
    /^commit [0-9]+ aside/ { made++ }
    /^news / { missed += $4 }
    /^~ / { told++ }
    END {
      if (told + missed == made) print told + 0
      else { print told " and " missed " of " made " changes" >"/dev/stderr"; exit 1 }
    }'
}

# rate FOLDER COUNT COMMAND: how many a second, of so many that a command makes on the store of a folder
rate() {
  timed 3 "sh $1/back.sh ;; env KDB_DIR=$1 $3" | awk -v count="$2" "$numbers"'
    { printf "%s", thousands(count * 1000 / $3) }'
}

# told FOLDER SCRIPT WORD: how many lines of what a script prints begin with a word
told() {
  sh "$1/back.sh"
  shown "$(KDB_DIR=$1 "$kdb" batch <"$2" | grep -c "^$3 " || true)"
}

# singles FOLDER: as many runs of the single command, one after the other
singles() {
  awk -v sets="$sets" -v kdb="$kdb" 'BEGIN {
    for (turn = 1; turn <= sets; turn++) printf "%s set user:/s1/key1 %d >/dev/null\n", kdb, turn
  }' >"$1/singles.sh"
  rate "$1" $((sets * 3)) "sh $1/singles.sh"
}

begin "$work"
begin "$memory"
cat <<TEXT
Each step is one of a get, a put and a set, of which there are $(shown "$sets") between all sessions. In memory means in a tmpfs,
and all at one mount is in memory. A set at a mount of its own is a commit; at one mount it is refused where another
came since its get, and not tried again; where the mount counts conflicts by key none is refused. \`kdb set\`, which is
three such steps in a run of its own, makes $(singles "$work") steps a second on the disk and $(singles "$memory") in memory.
TEXT
echo
echo "| sessions | steps a second on the disk, mounts of their own | in memory | all at one mount | conflicts | by key | conflicts |"
echo "|---|---|---|---|---|---|---|"
for sessions in 1 2 4 8 16 32; do
  script $sessions own >"$work/own"
  script $sessions one >"$work/one"
  script $sessions by_key >"$work/by_key"
  on_disk=$(rate "$work" $((sets * 3)) "$kdb batch < $work/own")
  in_memory=$(rate "$memory" $((sets * 3)) "$kdb batch < $work/own")
  at_one=$(rate "$memory" $((sets * 3)) "$kdb batch < $work/one")
  by_key=$(rate "$memory" $((sets * 3)) "$kdb batch < $work/by_key")
  blocked="$(told "$memory" "$work/one" conflict) | $by_key | $(told "$memory" "$work/by_key" conflict)"
  echo "| $sessions | $on_disk | $in_memory | $at_one | $blocked |"
done
cat <<TEXT

Merged sets at one mount, in memory: each session gets once, and then puts a key of its own and merges it in until it
is stored, so that each of the $(shown "$sets") sets is a commit.
TEXT
echo
echo "| sessions | commits a second | tries that met another's commit |"
echo "|---|---|---|"
for sessions in 1 2 4 8 16 32; do
  merges $sessions >"$work/merged"
  made=$(told "$memory" "$work/merged" "commit [0-9]* aside")
  [ "$made" = "$(shown "$sets")" ] || { echo "$made of $sets merged sets were stored" >&2; exit 1; }
  commits=$(rate "$memory" "$sets" "$kdb batch < $work/merged")
  echo "| $sessions | $commits | $(told "$memory" "$work/merged" tried) |"
done
polls=$((sets * 4))
cat <<TEXT

A session that watches all of them, with room for 4,096 changes, in memory: it polls $(shown $polls) times beside sessions that
make the $(shown "$sets") sets above at mounts of their own, and once behind them. The rates are by the time of the whole run.
TEXT
echo
echo "| sessions that set | polls a second | sets a second | sets a second without the polls | changes told, of $(shown "$sets") |"
echo "|---|---|---|---|---|"
for writers in 1 2 4 8 16 31; do
  watched $writers $polls >"$work/watched"
  watched $writers 0 >"$work/unwatched"
  told=$(heard "$memory" "$work/watched")
  polled=$(rate "$memory" $polls "$kdb batch < $work/watched")
  beside=$(rate "$memory" "$sets" "$kdb batch < $work/watched")
  alone=$(rate "$memory" "$sets" "$kdb batch < $work/unwatched")
  echo "| $writers | $polled | $beside | $alone | $(shown "$told") |"
done
echo
seconds=$(timed 3 "$kdb gen 1000" | awk '{ printf "%.1f", $3 / 1000 }')
echo "\`kdb gen 1000\`, four sessions with 1,000 such sets each on a disk of its own in memory, takes $seconds seconds."
