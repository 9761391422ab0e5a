#!/usr/bin/env bash
# Measures `thin` on the greatest regulated logs that it tries: 4,096 vectors of sixteen positions between two cores
# that jump in place, once all from core 0, and once by turns. Each is needed, so each trial goes through the whole log.
#
#   bench/thin.sh
#
# For each it prints a line: which, the seconds of processor time, the peak memory in KiB,
# and the bytes of input and of output.
set -eu
cd "$(dirname "$0")/.."
. bench/measure.sh

# The recording, in version 1: header, image, totals, an empty reduced log, and the vectors of both pairs.
recording() {
  python3 - "$1" <<'PYTHON'
import sys

VECTORS, POSITIONS, TOTAL = 4096, 16, 70000


def number(n):
    out = b""
    while n > 127:
        out += bytes([n % 128 + 128])
        n //= 128
    return out + bytes([n])


def vectors(starts):
    return number(len(starts)) + b"".join(number(POSITIONS) + number(s) + number(s) + b"\x01\x01" for s in starts)


starts = [POSITIONS * k + 1 for k in range(VECTORS)]
pairs = [starts, []] if sys.argv[1] == "one" else [starts[::2], starts[1::2]]
header = b"RTR\x01\x02" + number(100000) + b"\x04\x04\x6f\x00\x00\x00" + number(TOTAL) * 2 + b"\x00\x00"
sys.stdout.buffer.write(header + b"".join(map(vectors, pairs)))
PYTHON
}

echo "log seconds peak-KiB input-bytes output-bytes"
for log in one turns; do
  recording "$log" > "$place/recording"
  spent=$(/usr/bin/time -f '%U %M' "$tool" thin < "$place/recording" 2>&1 >"$place/thinned")
  echo "$log $spent $(wc -c < "$place/recording") $(wc -c < "$place/thinned")"
done
