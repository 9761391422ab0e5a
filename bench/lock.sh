#!/usr/bin/env bash
# Measures the tool on Peterson's lock: two cores that each take the lock for so many rounds and count up.
#
#   bench/lock.sh COMMAND [ROUNDS..]      COMMAND is run, record, replay, certify or check;
#                                         ROUNDS is 10, 100 and 500 where none is named
#
# For each number of rounds it prints a line, as bench/measure.sh says.
set -eu
cd "$(dirname "$0")/.."
command=${1:?run, record, replay, certify or check}
shift
[ $# -gt 0 ] || set -- 10 100 500
. bench/measure.sh
options="--cores 2 --limit 100000 --words 128 --seed 7"

echo "rounds retired seconds host/retired peak-KiB output-bytes"
for rounds in "$@"; do
  lock "$rounds" > "$place/image"
  measured "$rounds" "$place/image"
done
