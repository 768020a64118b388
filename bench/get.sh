#!/usr/bin/env bash
# Times `kdb get` on files of 20, 1,000 and 18,270 short keys (1 MiB), of these in falling order, and of 1,000 keys of
# a kilobyte each, beside `git config --get` and sqlite3 on the same data, in turn: wall clock, processor time and,
# with valgrind, instructions. Words stand for those sizes, as 20:0:rising: how many keys, how long their values are
# at least, and in which order they stand. Wants build/kdb (first-use.sh makes it), git and sqlite3. Not part of the
# gate.
set -eu
cd "$(dirname "$0")/.."
. bench/words.sh
put get "$@"
wants git sqlite3
program

# measure COUNT BYTES ORDER: a row
measure() {
  data "$1-$2-$3" "$1" "$2" "$3"
  cd "$work/$1-$2-$3"
  group=$(printf 'app%05d' $((($1 - 1) / 20)))
  key=$(printf 'key%05d' $(($1 - 1)))
  case "$("$kdb" get "user:/sw/$group/$key")" in "value number $(($1 - 1))"*) ;; *) exit 1 ;; esac
  case "$(git config --file git.cfg --get "sw.$group.$key")" in "value number $(($1 - 1))"*) ;; *) exit 1 ;; esac
  timed 60 "$kdb get user:/sw/$group/$key" "git config --file git.cfg --get sw.$group.$key" \
    "sqlite3 rows.db \"select value from settings where name = 'sw/$group/$key'\"" >times
  awk -v count="$1" -v order="$3" -v bytes="$(wc -c <.kdb/user.ecf)" \
    -v ours="$(instructions "$kdb" get "user:/sw/$group/$key")" \
    -v theirs="$(instructions git config --file git.cfg --get "sw.$group.$key")" "$numbers"'
    { wall[NR] = $1; cpu[NR] = $2 }
    END {
      printf "| %s%s | %s | %s, %s, %s ", thousands(count), order == "rising" ? "" : ", " order, thousands(bytes),
        ms(wall[1]), ms(wall[2]), ms(wall[3])
      printf "| %s, %s | %s | %s, %s | %s |\n", ms(cpu[1]), ms(cpu[2]), ratio(cpu[1], cpu[2]),
        millions(ours), millions(theirs), ratio(ours, theirs)
    }' times
  cd - >/dev/null
}

echo "One key is got from a file of so many; the aim is 1.3 times git's processor time at each size."
echo
echo "| keys | bytes | ms: \`kdb\`, git, sqlite3 | processor ms: \`kdb\`, git | times | million instructions | times |"
echo "|---|---|---|---|---|---|---|"
[ $# -gt 0 ] || set -- 20:0:rising 1000:0:rising 18270:0:rising 18270:0:falling 1000:980:rising
for it in "$@"; do
  IFS=: read -r count bytes order <<<"$it"
  measure "$count" "$bytes" "$order"
done
