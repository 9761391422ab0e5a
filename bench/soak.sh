#!/usr/bin/env bash
# Measures `soak` of the mix: a generated program on several cores, recorded, audited and replayed. Put beside the lock,
# it is the benchmark of the whole tool.
#
#   bench/soak.sh [CORES..]      8 where none is named
#
# Each core retires at most LIMIT instructions (100,000 where the environment doesn't say), of the mix whose number
# NUMBER is (3). For each number of cores it prints a line as bench/measure.sh says, less what a soak of one round of
# the lock takes. With PARTS=1 it prints then which functions take the host instructions of the last one.
set -eu
cd "$(dirname "$0")/.."
[ $# -gt 0 ] || set -- 8
. bench/measure.sh

soak() { words="soak --shape mix --number ${NUMBER:-3} --cores $1 --limit ${LIMIT:-100000}"; }

# What callgrind counted for each function of the tool, one a line: the host instructions in thousands, and its name.
calls() {
  callgrind_annotate --inclusive="$1" --threshold=100 --show-percs=no --auto=no "$place/calls" |
    sed -n 's/^ *\([0-9,]*\) .*???:\(.*\) \[.*/\1 \2/p' | tr -d , | awk '{ print int($1 / 1000), $2 }'
}

# The functions that take a hundredth or more: the host instructions in thousands,
# with those of what it calls and without.
parts() {
  valgrind --tool=callgrind --callgrind-out-file="$place/calls" "$tool" $words > "$place/out" 2> "$place/err"
  calls no > "$place/own"
  echo "thousands own-thousands function"
  calls yes |
    awk -v own="$place/own" 'BEGIN { while ((getline line < own) > 0) { split(line, f, " "); o[f[2]] = f[1] } }
      NR == 1 { all = $1 } $2 ~ /::/ && $1 * 100 >= all { print $1, o[$2] + 0, $2 }'
}

: > "$place/empty"
words="soak --shape lock --number 1"
base=$(host "$place/empty")
echo "cores retired seconds host/retired peak-KiB output-bytes"
for cores in "$@"; do
  soak "$cores"
  start=$(date +%s%N)
  "$tool" $words > "$place/out"
  end=$(date +%s%N)
  retired=$(sed -n 's/^retired //p' "$place/out")
  echo "$cores $retired $(echo "scale=3; ($end - $start) / 1000000000" | bc)" \
    "$((($(host "$place/empty") - base) / retired)) $(peak "$place/empty") $(wc -c < "$place/out")"
done
[ -z "${PARTS:-}" ] || parts
