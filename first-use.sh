#!/usr/bin/env bash
# Proves and builds the program, and reads one key with it in a folder of its own. What the gate or an earlier run of
# this script proved on this machine is taken, so a run that was cut short goes on where it stopped; and what this run
# proves, the gate takes. It fails where a proof fails, with what was said of it. It leaves the executable at build/kdb,
# which stands on the C library alone.
set -eu
cd "$(dirname "$0")"
program=kdb_main
mkdir -p build
# An executable of an earlier run must not pass for one of this run.
rm -rf build/kdb build/program build/first-use

# The crates that the program stands on, each behind those that it stands on itself.
crates=$(awk -F: -v program="$program" '
  /^[a-z]/ { split($1, head, " "); below[head[1]] = $2; there[head[1]] = 1 }
  function visit(name,    names, count, i) {
    if (!there[name] || seen[name]++) return
    count = split(below[name], names, " ")
    for (i = 1; i <= count; i++) visit(names[i])
    print name
  }
  END { visit(program) }' crates.txt)

# A repository of these crates alone, without the wrong bodies that the gate tries.
mkdir -p build/program/crates
git init -q build/program
cp HANDLES build/program/
for crate in $crates; do
  grep "^$crate[ :]" crates.txt >>build/program/crates.txt
  mkdir "build/program/crates/$crate"
  for part in "crates/$crate"/*; do
    case ${part##*/} in out | must-fail) ;; *) cp -r "$part" "build/program/crates/$crate/" ;; esac
  done
done

total=$(wc -l <build/program/crates.txt)
echo "$total crates are proved and built, on all processors. Where none was proved on this machine before," \
  "that takes some 100 processor minutes." >&2
number=0
(cd build/program && rt ci) 2>&1 | tee build/rt.log | while read -r line; do
  case $line in
    "rt: "*" proved" | "rt: "*" is kept"*)
      number=$((number + 1))
      printf '%s  crate %s of %s: %s\n' "$(date +%T)" "$number" "$total" "$line" >&2
      ;;
  esac
done || true
if ! tail -n 1 build/rt.log | grep -q ', 0 failed$'; then
  tail -n 40 build/rt.log >&2
  echo "not proved, or not built; build/rt.log has all that was said" >&2
  exit 1
fi
cp "build/program/crates/$program/out/$program" build/kdb
rm -rf build/program

mkdir -p build/first-use/.kdb
printf 'kdbOpen 2\n$key string 4 1\nsw/a\n1\n$end\n' >build/first-use/.kdb/user.ecf
cd build/first-use
../kdb get user:/sw/a
