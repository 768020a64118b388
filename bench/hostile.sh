#!/usr/bin/env bash
# Hostile bytes: files of each format, bodies of entries, journals, mount tables, scripts and imports that are cut,
# changed in a byte or say another size, asked of kdb_cases and of the program itself, and compared with slow readers in
# another language (bench/hostile.py). Wants build/kdb (first-use.sh makes it), and crates/kdb_cases/out/kdb_cases,
# which `rt run` leaves there; KDB and CASES name others. Not part of the gate.
set -eu
cd "$(dirname "$0")/.."
. bench/words.sh
put hostile "$@"
program
KDB=$kdb python3 bench/hostile.py run "${CASES:-crates/kdb_cases/out/kdb_cases}"
