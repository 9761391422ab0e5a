#!/usr/bin/env bash
# Measures the replay on threads: how long `replay` takes alone, and with 1, 2, 4 and 8 threads.
#
#   bench/threads.sh [TIMES]              each is taken so many times (7 where the word is missing),
#                                         and the least is told
#
# The works are two cores that take Peterson's lock 500 times (they wait for each other all the time), and cores that
# each count up a word of their own, and every eighth (counters), 64th or 512th time (loners) a word of all; of these
# each core retires 100,000 instructions; and mix 3 of `rtr gen` on four cores. For each work and each log (LOGS says
# which, both where it is missing) it prints a line: the work, how many cores, the log, and the seconds alone and with
# 1, 2, 4 and 8 threads. A machine of fewer processors than threads shows no gain by them. With COUNTS=1 it prints the
# millions of host instructions in place of the seconds, by callgrind, alone and with one thread. With FAULTS=1 it
# prints the least number of page faults in place of the seconds. INSTRUCTIONS says how many instructions a core of the
# works of cores that count retires, 100,000 where it is missing; all cores together retire at most 4,000,000.
set -eu
cd "$(dirname "$0")/.."
times=${1:-7}
[ -n "${FAULTS:-}" ] && told=faults || told=least
. bench/measure.sh

# The least seconds that a command takes on the recording.
least() {
  for _ in $(seq "$times"); do
    start=$(date +%s%N)
    "$tool" "$@" < "$place/recording" > "$place/out"
    end=$(date +%s%N)
    echo $(((end - start) / 1000))
  done | sort -n | sed -n '1s/$/ \/ 1000000/p' | bc -l | cut -c1-6
}

# The least number of page faults of a command on the recording.
faults() {
  for _ in $(seq "$times"); do
    { command time -f %R "$tool" "$@" < "$place/recording" > "$place/out"; } 2>&1
  done | sort -n | sed -n 1p
}

# The millions of host instructions that a command takes on the recording.
millions() {
  words=$*
  echo "scale=2; $(host "$place/recording") / 1000000" | bc
}

# A line for each log of a work: its name, its cores, and the options of the recording.
work() {
  most=$((4000000 / $2))
  limit=${INSTRUCTIONS:-100000}
  "$tool" record --cores "$2" --limit $((limit < most ? limit : most)) --words 2048 --seed 7 < "$place/image" > "$place/recording"
  for log in ${LOGS:-reduced regulated}; do
    if [ -n "${COUNTS:-}" ]; then
      echo "$1 $2 $log $(millions replay --log $log) $(millions replay --log $log --threads 1)"
      continue
    fi
    line="$1 $2 $log $($told replay --log $log)"
    cp "$place/out" "$place/alone"
    for threads in 1 2 4 8; do
      line="$line $($told replay --log $log --threads $threads)"
      cmp "$place/out" "$place/alone"
    done
    echo "$line"
  done
}

[ -n "${COUNTS:-}" ] && echo "work cores log alone 1" || echo "work cores log alone 1 2 4 8"
lock 500 > "$place/image"
work lock 2
counters > "$place/image"
work counters 4
loners 64 > "$place/image"
work each-64th 4
work each-64th 8
loners 512 > "$place/image"
work each-512th 2
work each-512th 4
"$tool" gen --shape mix --number 3 > "$place/image"
work mix-3 4
