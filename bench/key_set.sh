#!/usr/bin/env bash
# Times appends and lookups of a key set of 1,000, 10,000 and 100,000 names in mixed order, beside a BTreeMap<String,
# String> of Rust's own on the same names and the same machine, with the ratios; then appends in rising and falling
# order, and copies of a set of 20,000 names beside the making of it. The programs are timed from outside: making the
# names alone, appending them, and looking each of them up in some rounds; the least of some runs counts. Words stand
# for the three sizes, and then the orders and the copies are of the last of them. Wants rustc; with valgrind it
# counts instructions. Not part of the gate.
set -eu
cd "$(dirname "$0")/.."
. bench/words.sh
put key_set "$@"
wants rustc
mkdir -p build
(cd crates/key_set_bench && rt run -- 5 1 2 0 1 >../../build/rt.log 2>&1) || true
ours=${KEY_SET_BENCH:-$PWD/crates/key_set_bench/out/key_set_bench}
[ -x "$ours" ] || { tail -n 20 build/rt.log >&2; exit 1; }
work=$(mktemp -d)
trap 'rm -rf "$work"' EXIT
cat >"$work/theirs.rs" <<'RUST'
use std::collections::BTreeMap;

fn main() {
    let words: Vec<u64> = std::env::args().skip(1).map(|w| w.parse().unwrap()).collect();
    let (count, append, rounds, order) = (words[0], words[1], words[2], words[3]);
    let names: Vec<String> = (0..count)
        .map(|i| match order {
            0 => i * 7919 % count,
            1 => i,
            _ => count - 1 - i,
        })
        .map(|n| n + 100000)
        .map(|n| format!("user:/bench/group{}/key{}", n / 50, n))
        .collect();
    if append == 0 {
        std::process::exit((names.len() as u64 != count) as i32);
    }
    let mut keys = BTreeMap::new();
    for name in &names {
        keys.insert(name.clone(), String::new());
    }
    let mut found = 0;
    for _ in 0..rounds {
        found += names.iter().filter(|name| keys.contains_key(*name)).count() as u64;
    }
    std::process::exit((found != rounds * keys.len() as u64) as i32);
}
RUST
rustc -O -o "$work/theirs" "$work/theirs.rs"

# taken PROGRAM COUNT ROUNDS ORDER: nanoseconds of an append and of a lookup
taken() {
  timed 11 "$1 $2 0 0 $4 0" "$1 $2 1 0 $4 0" "$1 $2 1 $3 $4 0" | awk -v count="$2" -v rounds="$3" '
    { least[NR] = $3 * 1e6 }
    END { printf "%.0f %.0f\n", (least[2] - least[1]) / count, rounds ? (least[3] - least[2]) / count / rounds : 0 }'
}

# counted PROGRAM COUNT ORDER: instructions of an append, and of a lookup
counted() {
  local made appended looked_up
  made=$(instructions "$1" "$2" 0 0 "$3" 0)
  appended=$(instructions "$1" "$2" 1 0 "$3" 0)
  looked_up=$(instructions "$1" "$2" 1 1 "$3" 0)
  echo "$(((appended - made) / $2)) $(((looked_up - appended) / $2))"
}

# row COUNT ORDER ROUNDS: all of the two, on one line: ns of an append and of a lookup, and instructions of these
row() {
  echo "$(taken "$ours" "$1" "$3" "$2") $(taken "$work/theirs" "$1" "$3" "$2")" \
    "$(counted "$ours" "$1" "$2") $(counted "$work/theirs" "$1" "$2")"
}

[ $# -gt 0 ] || set -- 1000 10000 100000
cat <<'TEXT'
An append copies the name and takes an empty value, as the `BTreeMap` clones the name. The aims are 3 times its time for
an append and 2 times for a lookup. Names are in mixed order.
TEXT
echo
echo "| names | append: ns, and times the other's | instructions | lookup: ns, and times the other's | instructions |"
echo "|---|---|---|---|---|"
for count in "$@"; do
  row "$count" 0 $((10000000 / count / 10 + 1)) | awk -v count="$count" "$numbers"'{
    printf "| %s | %s, %s | %s, %s ", thousands(count), thousands($1), ratio($1, $3), thousands($5), ratio($5, $7)
    printf "| %s, %s | %s, %s |\n", thousands($2), ratio($2, $4), thousands($6), ratio($6, $8)
  }'
done
last=$count
echo
echo "| order of $(shown "$last") names | append, key set | instructions | append, \`BTreeMap\` | instructions |"
echo "|---|---|---|---|---|"
orders=(mixed rising falling)
for order in 1 0 2; do
  row "$last" $order 0 | awk -v order="${orders[order]}" "$numbers"'{
    printf "| %s | %s ns | %s | %s ns | %s |\n", order, thousands($1), thousands($5), thousands($3), thousands($7)
  }'
done
made=$((last / 5))
timed 11 "$ours $made 1 0 1 0" "$ours $made 1 0 1 200" >"$work/copies"
none=$(instructions "$ours" "$made" 1 0 1 0)
some=$(instructions "$ours" "$made" 1 0 1 100)
echo
awk -v made="$made" -v none="$none" -v some="$some" "$numbers"'
  { least[NR] = $3 }
  END {
    printf "A copy of a set of %s names takes %.1f µs and %s instructions;\n", thousands(made),
      (least[2] - least[1]) * 1000 / 200, thousands((some - none) / 100)
    printf "to make the set, names included, %.1f ms and %s million.\n", least[1], millions(none)
  }' "$work/copies"
