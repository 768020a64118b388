#!/usr/bin/env bash
# Times `kdb set` of one key on files of 20, 1,000 and 18,270 short keys (1 MiB), of these in falling order, and of
# 1,000 keys of a kilobyte each, beside `git config` and sqlite3 that store the same data, in turn: wall clock,
# processor time and, with valgrind, instructions; and counts what each asks of the disk: the calls of fsync and
# fdatasync, and the bytes that it writes to files. Words stand for those sizes, as in get.sh. Wants build/kdb
# (first-use.sh makes it), git, sqlite3 and strace. Not part of the gate.
set -eu
cd "$(dirname "$0")/.."
. bench/words.sh
put set "$@"
wants git sqlite3 strace
program

# asked COMMAND: how often it calls fsync or fdatasync, and how many bytes it writes to files
asked() {
  strace -f -qq -y -e trace=fsync,fdatasync,write,pwrite64,writev -o trace.txt sh -c "$1" >/dev/null
  awk "$numbers"'
    /sync\(/ { syncs++ }
    /write(64|v)?\([0-9]+<\// && !/<\/dev\// { bytes += $NF }
    END { printf "%d; %s", syncs, thousands(bytes) }' trace.txt
}

# measure COUNT BYTES ORDER: a row, and one of what the disk is asked for
measure() {
  data "$1-$2-$3" "$1" "$2" "$3"
  cd "$work/$1-$2-$3"
  name=app00000/key00007 key=app00000.key00007
  for i in 0 1 2; do
    for word in new old; do
      case $i in
        0) command="$kdb set user:/sw/$name $word" ;;
        1) command="git config --file git.cfg sw.$key $word" ;;
        2) command="sqlite3 rows.db \"update settings set value = '$word' where name = 'sw/$name'\"" ;;
      esac
      [ $word = new ] && commands[i]=$command
      # Each has stored once before it is counted: its journal is there.
      sh -c "$command" >/dev/null
    done
    restore[i]=$command
    asked[i]=$(asked "${commands[i]}")
  done
  timed 30 "${restore[0]} ;; ${commands[0]}" "${restore[1]} ;; ${commands[1]}" "${restore[2]} ;; ${commands[2]}" >times
  # What is there already would be stored by neither.
  sh -c "${restore[0]}" >/dev/null
  sh -c "${restore[1]}" >/dev/null
  ours=$(instructions "$kdb" set user:/sw/$name new)
  theirs=$(instructions git config --file git.cfg sw.$key new)
  size="$(awk -v count="$1" -v order="$3" "$numbers"'BEGIN {
    printf "%s%s", thousands(count), order == "rising" ? "" : ", " order }')"
  awk -v size="$size" -v bytes="$(wc -c <.kdb/user.ecf)" -v ours="$ours" -v theirs="$theirs" "$numbers"'
    { wall[NR] = $1; cpu[NR] = $2 }
    END {
      printf "| %s | %s | %s, %s, %s ", size, thousands(bytes), ms(wall[1]), ms(wall[2]), ms(wall[3])
      printf "| %s, %s | %s | %s, %s | %s |\n", ms(cpu[1]), ms(cpu[2]), ratio(cpu[1], cpu[2]),
        millions(ours), millions(theirs), ratio(ours, theirs)
    }' times
  echo "| $size | ${asked[0]} | ${asked[1]} | ${asked[2]} |" >>"$work/asked"
  cd - >/dev/null
}

cat <<'TEXT'
One key is set in a file of so many; the aim is 1.5 times git's processor time at each size. git syncs nothing, so its
wall clock is no measure; that of sqlite3 with its rollback journal is.
TEXT
echo
echo "| keys | bytes | ms: \`kdb\`, git, sqlite3 | processor ms: \`kdb\`, git | times | million instructions | times |"
echo "|---|---|---|---|---|---|---|"
[ $# -gt 0 ] || set -- 20:0:rising 1000:0:rising 18270:0:rising 18270:0:falling 1000:980:rising
for it in "$@"; do
  IFS=: read -r count bytes order <<<"$it"
  measure "$count" "$bytes" "$order"
done
echo
echo "| keys | syncs and bytes written: \`kdb\` | \`git config\` | sqlite3 |"
echo "|---|---|---|---|"
cat "$work/asked"
