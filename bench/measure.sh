# What the benches share: words of an image, and what a command of the tool costs. It is sourced, not run.
#
# It needs the built tool (crates/rtr/out/rtr, or the one that $RTR names), and Debian's valgrind, time and bc.

tool=${RTR:-$PWD/crates/rtr/out/rtr}
[ -x "$tool" ] || { echo "build the tool first: (cd crates/rtr && rt run -- record) < crates/rtr/stdin" >&2; exit 1; }
place=$(mktemp -d)
trap 'rm -rf "$place"' EXIT

# A word as four bytes, the least first.
word() {
  printf "\\x$(printf %02x $(($1 & 255)))\\x$(printf %02x $(($1 >> 8 & 255)))"
  printf "\\x$(printf %02x $(($1 >> 16 & 255)))\\x$(printf %02x $(($1 >> 24 & 255)))"
}

# The lock for so many rounds, 1 to 2047.
lock() { "$tool" gen --shape lock --number "$1"; }

# Cores that each count up a word of their own, and every eighth time a word of all: LUI and ADDI x5, a million rounds,
# so that the limit stops each core; x6 is the core's own block; the loop, and ECALL.
counters() {
  for w in 0x000f42b7 0x24028293 0x00451313 0x10032383 0x00138393 0x10732023 0x0073f413 0x00041863 0x04002483 \
    0x00148493 0x04902023 0xfff28293 0xfc029ee3 0x00000073; do
    word $w
  done
}

# The same with the cores' own words 512 bytes apart, and the word of all every so many times: 8, 64 or 512.
loners() {
  for w in 0x000f42b7 0x24028293 0x00951313 0x10032383 0x00138393 0x10732023 $(((${1:-512} - 1) << 20 | 0x3f413)) \
    0x00041863 0x04002483 0x00148493 0x04902023 0xfff28293 0xfc029ee3 0x00000073; do
    word $w
  done
}

# What the command reads for an image: the image, or the recording of its run, or the certificate of that.
input() {
  case $command in
    run | record) cat "$1" ;;
    check) "$tool" record $options < "$1" | "$tool" certify ;;
    *) "$tool" record $options < "$1" ;;
  esac
}

# The host instructions of the command on an input.
host() {
  valgrind --tool=callgrind --callgrind-out-file=/dev/null "$tool" $words < "$1" 2>&1 >/dev/null |
    sed -n 's/.*Collected : *//p'
}

# The peak memory in KiB.
peak() { /usr/bin/time -f %M "$tool" $words < "$1" 2>&1 >/dev/null; }

# The line of a run of an image under $options: what it is of, the instructions that retired, the seconds of the
# command, the host instructions for each retired one (less those of a run of an empty image), the peak memory and
# the bytes of output.
measured() {
  case $command in
    run | record) words="$command $options" ;;
    *) words=$command ;;
  esac
  : > "$place/empty"
  input "$place/empty" > "$place/nothing"
  base=$(host "$place/nothing")
  retired=$("$tool" run $options < "$2" | sed -n 's/^core .* retired \([0-9]*\) .*/\1/p' | paste -sd+ | bc)
  input "$2" > "$place/input"
  start=$(date +%s%N)
  "$tool" $words < "$place/input" > "$place/out"
  end=$(date +%s%N)
  echo "$1 $retired $(echo "scale=3; ($end - $start) / 1000000000" | bc)" \
    "$((($(host "$place/input") - base) / retired)) $(peak "$place/input") $(wc -c < "$place/out")"
}
