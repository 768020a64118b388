# Words that the scripts share: each reads this file in the folder above bench/, with `. bench/words.sh`.

# put SCRIPT WORD..: has the script run once more by bench/put.py, which writes what it prints into docs/TIMES.md.
put() {
  [ -n "${IS_PUT-}" ] || exec python3 bench/put.py "$@"
}

# wants TOOL..: each is there
wants() {
  for tool in "$@"; do
    command -v "$tool" >/dev/null || { echo "install $tool first (apt-get install $tool)" >&2; exit 1; }
  done
}

# program: $kdb is the program, and $work an empty folder, which goes with the script
program() {
  kdb=${KDB:-$PWD/build/kdb}
  [ -x "$kdb" ] || { echo "run ./first-use.sh first" >&2; exit 1; }
  work=$(mktemp -d)
  trap 'rm -rf "$work"' EXIT
}

# data FOLDER COUNT BYTES ORDER: that many keys, with values of some bytes at least, as a dump, as git's configuration
# and as a table
data() {
  mkdir -p "$work/$1/.kdb"
  awk -v count="$2" -v bytes="$3" -v order="$4" -v folder="$work/$1" 'BEGIN {
    dump = folder "/.kdb/user.ecf"; git = folder "/git.cfg"; sql = folder "/rows.sql"
    printf "kdbOpen 2\n" >dump
    print "create table settings(name text primary key, value text); begin;" >sql
    for (turn = 0; turn < count; turn++) {
      i = order == "falling" ? count - 1 - turn : turn
      group = sprintf("app%05d", int(i / 20)); key = sprintf("key%05d", i); value = "value number " i
      while (length(value) < bytes) value = value " and some more"
      name = "sw/" group "/" key
      printf "$key string %d %d\n%s\n%s\n", length(name), length(value), name, value >dump
      if (group != last) printf "[sw \"%s\"]\n", group >git
      last = group
      printf "\t%s = %s\n", key, value >git
      printf "insert into settings values(\"%s\", \"%s\");\n", name, value >sql
    }
    printf "$end\n" >dump
    print "commit;" >sql
  }'
  sqlite3 "$work/$1/rows.db" <"$work/$1/rows.sql"
}

# timed RUNS COMMAND..: median wall clock, median processor time and least wall clock of each, in milliseconds, a line
# each
times_py=$PWD/bench/times.py
timed() { python3 "$times_py" "$@"; }

# instructions COMMAND..: how many it takes, where valgrind is there to count them, else 0
instructions() {
  command -v valgrind >/dev/null || { echo 0; return; }
  valgrind --tool=callgrind --callgrind-out-file=/dev/null "$@" 2>&1 >/dev/null | awk '/Collected/ { print $4 }'
}

# What awk programs of the scripts share: numbers as a page has them. `ratio` of what wasn't counted is empty.
numbers='
  function thousands(n,    text, out) {
    text = sprintf("%d", n)
    while (length(text) > 3) { out = "," substr(text, length(text) - 2) out; text = substr(text, 1, length(text) - 3) }
    return text out
  }
  function ms(n) { return n < 10 ? sprintf("%.1f", n) : sprintf("%.0f", n) }
  function millions(n) { return n ? (n < 1e7 ? sprintf("%.2f", n / 1e6) : sprintf("%.1f", n / 1e6)) : "" }
  function ratio(a, b) { return a && b ? sprintf("%.2f", a / b) : "" }'

# shown NUMBER: with commas
shown() { awk -v n="$1" "$numbers"'BEGIN { printf "%s", thousands(n) }'; }
