#!/usr/bin/env bash
# Times `kdb export` and `kdb import` of 1 MiB of simpleini beside `git config --list` on the same data, and beside a
# look-up of crudini where it is installed; and of 1 MiB of JSON beside `jq`, where that is installed. Each in turn: wall
# clock, processor time and, with valgrind, instructions. A word stands for the number of keys. Wants build/kdb
# (first-use.sh makes it) and git. Not part of the gate.
set -eu
cd "$(dirname "$0")/.."
. bench/words.sh
put passing "$@"
wants git
program
cd "$work"
count=${1:-35000}
# A JSON file takes some more bytes a key: a sixteenth of the keys less is 1 MiB too.
fewer=$((count - count / 16))
awk -v count="$count" -v fewer="$fewer" 'BEGIN {
  print "[s]" >"git.cfg"
  printf "{" >"data.json"
  for (i = 0; i < count; i++) {
    printf "key%05d = value number %d\n", i, i >"data.ini"
    printf "key%05d = value number %d\n", i, i >"git.cfg"
    if (i < fewer) printf "%s\"key%05d\":\"value number %d\"", (i ? "," : ""), i, i >"data.json"
  }
  printf "}\n" >"data.json"
}'

# filled ENDING NAME FORMAT: mounts a file of the format in a store of its own, since each command reads all mounts, and
# fills it with the data, which have to come out again (the same keys as a dump are over the limit of a file)
filled() {
  mkdir "$work/$1"
  cd "$work/$1"
  mv "../data.$1" .
  "$kdb" mount "s.$1" "$2" "$3"
  "$kdb" import "$2" "$3" <"data.$1"
  "$kdb" export "$2" "$3" >out
  cmp out "data.$1"
}
filled ini user:/s simpleini

# told FORMAT KEYS FILE: prints a table of `names` and `commands`, which are run in turn
told() {
  timed 15 "${commands[@]}" >times
  printf '%s\n' "${names[@]}" >names
  : >counted
  local command
  for command in "${commands[@]}"; do
    case $command in *' ;; '*) ${command%% ;; *} >/dev/null; command=${command#* ;; } ;; esac
    # shellcheck disable=SC2086
    case $command in
      *' < '*) counted=$(instructions ${command%% < *} <"${command#* < }") ;;
      *) counted=$(instructions $command </dev/null) ;;
    esac
    echo "${counted:-0}" >>counted
  done
  awk -v format="$1" -v count="$2" -v bytes="$(wc -c <"$3")" "$numbers"'BEGIN {
    printf "%s bytes of %s with %s keys.\n\n", thousands(bytes), format, thousands(count)
    print "| command | ms | processor ms | million instructions |"
    print "|---|---|---|---|"
  }'
  paste -d'|' names times counted | awk -F'|' "$numbers"'
    { split($2, it, " "); printf "| %s | %s | %s | %s |\n", $1, ms(it[1]), ms(it[2]), millions($3) }'
}

# An import of what is there stores nothing; one that brings another value stores the whole file.
ours=('`kdb export`' '`kdb import` of what is there' '`kdb import` of one new value')
names=("${ours[@]}" '`git config --list`')
commands=(
  "$kdb export user:/s simpleini"
  "$kdb import user:/s simpleini < data.ini"
  "$kdb set user:/s/key00007 former ;; $kdb import user:/s simpleini < data.ini"
  'git config --file ../git.cfg --list'
)
if command -v crudini >/dev/null; then
  names+=('`crudini --get` of one key')
  commands+=("$(command -v crudini) --get ../git.cfg s key00007")
fi
told simpleini "$count" data.ini
echo

filled json user:/j json
# `jq` reads the file and puts it out again, as an export does, or looks up one value of it.
names=("${ours[@]}")
commands=(
  "$kdb export user:/j json"
  "$kdb import user:/j json < data.json"
  "$kdb set user:/j/key00007 former ;; $kdb import user:/j json < data.json"
)
if command -v jq >/dev/null; then
  names+=('`jq` of the whole file' '`jq` of one value')
  commands+=('jq -c . data.json' 'jq -r .key00007 data.json')
else
  echo "jq is not here (apt-get install jq): its rows are left out" >&2
fi
told JSON "$fewer" data.json
