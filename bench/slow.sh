#!/usr/bin/env bash
# Legal files that once made commands slow, at a quarter, half and the whole of their size: processor seconds and memory
# of three commands on each (bench/slow_files.py). Words stand for other parts, as 0.1. Wants build/kdb (first-use.sh
# makes it). Not part of the gate.
set -eu
cd "$(dirname "$0")/.."
. bench/words.sh
put slow "$@"
program
python3 bench/slow_files.py "$kdb" "$work" "$@"
