#!/usr/bin/env bash
# Measures the tool on many cores, each of which counts up a word of its own, and every eighth time a word of all.
#
#   bench/cores.sh COMMAND [CORES..]      COMMAND is run, record, replay, certify or check;
#                                         CORES is 8 and 16 where none is named
#
# Each core retires INSTRUCTIONS instructions (100,000 where the environment doesn't say). For each number of cores it
# prints a line, as bench/measure.sh says.
set -eu
cd "$(dirname "$0")/.."
command=${1:?run, record, replay, certify or check}
shift
[ $# -gt 0 ] || set -- 8 16
. bench/measure.sh
instructions=${INSTRUCTIONS:-100000}

counters > "$place/image"

echo "cores retired seconds host/retired peak-KiB output-bytes"
for cores in "$@"; do
  options="--cores $cores --limit $instructions --words 128 --seed 7"
  measured "$cores" "$place/image"
done
