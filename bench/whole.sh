#!/usr/bin/env bash
# Measures whole commands: Peterson's lock on two cores with 500 rounds, the third mix of `rtr gen` with at most 100,000
# instructions a core on 4, 8 and 16 cores, and one ECALL with the defaults.
#
#   bench/whole.sh
#
# For each it prints a line: the command, the work, the millions of host instructions (by callgrind), and the peak
# memory in KiB.
set -eu
cd "$(dirname "$0")/.."
. bench/measure.sh

# The line of a command with its options, of a work, on a file.
line() {
  words=$1
  echo "${1%% *} $2 $(echo "scale=3; $(host "$place/$3") / 1000000" | bc) $(peak "$place/$3")"
}

# The lines of a work's recording and of its certificate, whose file names begin with a word.
of_recording() {
  line replay "$1" "$2.recording"
  line certify "$1" "$2.recording"
  "$tool" certify < "$place/$2.recording" > "$place/$2.certificate"
  line check "$1" "$2.certificate"
}

# The lines of cores with store buffers, of a work, its options, and its file's first word.
with_buffers() {
  line "tsorun $2" "$1" "$3"
  line "tsorecord $2" "$1" "$3"
  "$tool" tsorecord $2 < "$place/$3" > "$place/$3.tso"
  line tsoreplay "$1" "$3.tso"
}

on_lock="--cores 2 --limit 100000 --words 128 --seed 7"
lock 500 > "$place/lock"
"$tool" gen --shape mix --number 3 > "$place/mix"
word 0x73 > "$place/ecall"
"$tool" record $on_lock < "$place/lock" > "$place/lock.recording"
"$tool" record --cores 8 --limit 100000 --seed 5 < "$place/mix" > "$place/mix.recording"

line "record $on_lock" lock lock
line "run $on_lock" lock lock
for cores in 4 8 16; do
  line "record --cores $cores --limit 100000 --seed 5" "mix-3-$cores" mix
  line "run --cores $cores --limit 100000 --seed 5" "mix-3-$cores" mix
done
line record ecall ecall
line run ecall ecall
of_recording lock lock
of_recording mix-3-8 mix
with_buffers lock "$on_lock" lock
with_buffers mix-3-8 "--cores 8 --limit 100000 --seed 5" mix
