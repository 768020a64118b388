#!/usr/bin/env bash
# Counts what a commit asks of the disk where one opening makes 1, 10 or 100 of them: `kdb batch` beside sqlite3 with a
# write-ahead log, each in one run, on files of 20 and of 1,000 keys: the calls of fsync and fdatasync, and the bytes
# that it writes to files, both over the count of commits; and how many commits a second both make on the disk of the
# temporary folder. What the opening and the end ask for counts, too. Words stand for the counts of keys. Wants
# build/kdb (first-use.sh makes it), sqlite3 and strace. Not part of the gate.
set -eu
cd "$(dirname "$0")/.."
. bench/words.sh
put commits "$@"
wants sqlite3 strace
program

# scripts COMMITS: so many commits of one key, each with a value of its own, as a batch and as transactions
scripts() {
  awk -v commits="$1" 'BEGIN {
    print "session 1\nget user:/sw" >"batch"
    print "pragma synchronous = full;" >"log.sql"
    for (turn = 1; turn <= commits; turn++) {
      printf "put user:/sw/app00000/key00007 \"turn %d\"\nset user:/sw\n", turn >"batch"
      printf "update settings set value = '\''turn %d'\'' where name = '\''sw/app00000/key00007'\'';\n", turn >"log.sql"
    }
  }'
}

# asked COMMITS COMMAND: its calls of fsync and fdatasync, and the bytes that it writes to files, for each commit
asked() {
  sh back.sh
  strace -f -qq -y -o trace.txt -e trace=fsync,fdatasync,write,pwrite64,writev sh -c "$2" >/dev/null
  awk -v commits="$1" "$numbers"'
    /sync\(/ && / = 0/ { syncs++ }
    /write(64|v)?\([0-9]+<\// && !/<\/dev\// { bytes += $NF }
    END { printf "%s; %s", ms(syncs / commits), thousands(bytes / commits) }' trace.txt
}

# measure KEYS COMMITS: a row
measure() {
  scripts "$2"
  ours="$kdb batch < batch" theirs="sqlite3 log.db < log.sql"
  ours_asked=$(asked "$2" "$ours") theirs_asked=$(asked "$2" "$theirs")
  sh back.sh
  told=$("$kdb" batch <batch | grep -c '^commit [0-9]* aside 0$')
  [ "$told" = "$2" ] || { echo "$told of $2 sets were stored" >&2; exit 1; }
  timed 10 "sh back.sh ;; $ours" "sh back.sh ;; $theirs" >times
  awk -v keys="$1" -v commits="$2" -v ours="$ours_asked" -v theirs="$theirs_asked" "$numbers"'
    { rate[NR] = thousands(commits * 1000 / $1) }
    END {
      printf "| %s | %d | %s | %s | %s, %s |\n", thousands(keys), commits, ours, theirs, rate[1], rate[2]
    }' times
}

cat <<'TEXT'
One key is set as often in one run, each time with another value, and each set is a commit that is on the disk when it
is answered. The files are written once, at the end or by a flush beside the commits; sqlite3 syncs its log with each
commit, and copies it at the end. A commit syncs the journal twice, and the folder only where a file was made in it
since.
TEXT
echo
echo "| keys | commits | syncs and bytes a commit: \`kdb batch\` | sqlite3 | commits a second: \`kdb batch\`, sqlite3 |"
echo "|---|---|---|---|---|"
[ $# -gt 0 ] || set -- 20 1000
for keys in "$@"; do
  data "$keys" "$keys" 0 rising
  cd "$work/$keys"
  mv .kdb begun
  sqlite3 rows.db 'pragma journal_mode = wal' >/dev/null
  echo 'rm -rf .kdb log.db log.db-wal log.db-shm; cp -r begun .kdb; cp rows.db log.db' >back.sh
  for commits in 1 10 100; do
    measure "$keys" "$commits"
  done
  cd - >/dev/null
done
