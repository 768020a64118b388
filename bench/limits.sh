#!/usr/bin/env bash
# Runs at the limits, beside the same at a quarter of them: 64 mounts with files of 1 MiB, a script of 4 MiB and 100,000
# lines, 32 sessions, and a history of 64 MiB (bench/limits.py): processor seconds and memory of each, and how many
# times those of the quarter the whole takes; ends with 1 where one grows faster than its input. Words stand for the
# kinds, as `history`. Wants build/kdb (first-use.sh makes it), python3, and 2 GiB of memory. Not part of the gate.
set -eu
cd "$(dirname "$0")/.."
. bench/words.sh
put limits "$@"
program
# What lies in memory goes with the script, too: no sync is waited for there.
memory=$(mktemp -d -p /dev/shm)
trap 'rm -rf "$work" "$memory"' EXIT
cat <<'TEXT'
The files and scripts stand in memory. Mounts of one's own are files of simpleini with 2,400 keys each, and blanks that
make them 1 MiB; those of the table and of the four roots are dumps. A script for several sessions is made of gets, puts
and sets, each set a commit or a conflict. A history grows by undos, each of the commit before it, until its limit
refuses one more. What takes four times as much as a quarter is in step with its input.

TEXT
python3 bench/limits.py "$kdb" "$memory" "$@"
