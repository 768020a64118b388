#!/usr/bin/env bash
# Runs the real program under faults of the system, in five parts, and ends with 1 where something that must hold
# doesn't; the head of each part says what that is:
#
#   calls   each of its calls of the system fails in turn, or is a kill (bench/faults_calls.py, by strace)
#   short   its reads and writes take fewer bytes than they are asked to (bench/faults_short.py and .c, by LD_PRELOAD)
#   sizes   files may have so many bytes and no more, for each number (bench/faults_sizes.py)
#   full    file systems fill up, also in the middle of a batch (bench/faults_full.py)
#   many    twenty programs at one time for a minute, with kills among them, on the disk and in memory
#           (bench/faults_many.py)
#
# A word stands for one part; further ones, but behind full or many, for commands (bench/faults_cases.py). `quick`
# in front of all tries a part of each, in a minute or two. What is tried is the commands get, validate, set, rm, mv,
# mount, merge, import, batch and gen, the first set of all (first), and a get over an open journal (opened) and over
# that of a former program (former). Wants build/kdb (first-use.sh makes it), strace and a C compiler; the full file
# systems want the right to mount. The whole takes some ten minutes on four processors. Not part of the gate.
set -u
cd "$(dirname "$0")/.." || exit 1
. bench/words.sh
put faults "$@"
wants strace cc prlimit
program
# Stores lie in memory, where a sync costs nothing, but for those of twenty programs on the disk.
memory=$(mktemp -d -p /dev/shm)
trap 'umount "$memory/full/full" 2>/dev/null; rm -rf "$work" "$memory"' EXIT
[ "$(stat -f -c %T "$memory")" = tmpfs ] || { echo "/dev/shm is not in memory" >&2; exit 1; }
wrong=0

step=1 seconds=60
[ "${1-}" = quick ] && { step=11 seconds=5; shift; }
part=${1-all}
[ $# -gt 0 ] && shift

# is PART: whether it is to be tried. It has a folder of its own
is() {
  [ "$part" = all ] || [ "$part" = "$1" ] || return 1
  mkdir "$memory/$1"
  echo "-- $1" >&2
}

# try SCRIPT WORD..: runs it on the program
try() {
  python3 "bench/$1" "$kdb" "${@:2}" || wrong=1
}

if is calls; then try faults_calls.py "$memory/calls" $step "$@"; fi
if is short; then
  cc -O2 -shared -fPIC -o "$work/short.so" bench/faults_short.c || exit 1
  echo
  try faults_short.py "$memory/short" $step "$work/short.so" "$@"
fi
if is sizes; then try faults_sizes.py "$memory/sizes" $step "$@"; fi
if is full; then try faults_full.py "$memory/full" $step; fi
if is many; then
  cat <<TEXT

Twenty programs at one time for $seconds seconds, with kills among them, on the disk and in memory: sets, removals,
moves and batches. A run is acknowledged where it ends with 0; of the kills some are aimed at whoever holds the folder's
lock just then, and one such run is stopped for longer than others wait. A look gets six keys of a worker at once. What
is lost is what an acknowledged run did and isn't there later.

| where | runs | changes acknowledged | killed | aimed at the lock | looks | waited ten seconds in vain | lost |
|---|---|---|---|---|---|---|---|
TEXT
  try faults_many.py "$work" $seconds 'the disk'
  try faults_many.py "$memory/many" $seconds memory
fi

[ $wrong = 0 ] || { echo "something didn't hold" >&2; exit 1; }
echo 'all that must hold held' >&2
