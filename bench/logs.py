#!/usr/bin/env python3
"""How many bytes each of the two logs of a recording takes, as it stands and compressed.

usage: bench/logs.py TOOL

A row for each work: instructions retired, edges and vectors, and of either log its bytes, those that zlib (level 9) and
those that xz (preset 9, extreme) make of it.
"""
import lzma
import os
import subprocess
import sys
import zlib

TOP = os.path.dirname(os.path.dirname(os.path.abspath(__file__)))
LOCK = "--cores 2 --limit 100000 --words 128 --seed 7"
MIX = "--cores {} --limit 100000 --seed 5"
WORKS = [
    ("Peterson's lock, 500 rounds", "lock 500", LOCK),
    ("mix 3, 4 cores", "mix 3", MIX.format(4)),
    ("mix 3, 8 cores", "mix 3", MIX.format(8)),
    ("mix 3, 16 cores", "mix 3", MIX.format(16)),
    ("examples/relay", None, "--cores 2 --words 512 --seed 0"),
]


def number(data, at):
    """The number that stands there in LEB128, and what comes behind it."""
    value = shift = 0
    while data[at] > 127:
        value |= (data[at] & 127) << shift
        at, shift = at + 1, shift + 7
    return value | data[at] << shift, at + 1


def numbers(data, at, count):
    values = []
    for _ in range(count):
        value, at = number(data, at)
        values.append(value)
    return values, at


def parts(data):
    """What a recording of version 2 retired, its edges, and the bytes of its reduced and of its regulated log."""
    (cores, _, _, length), at = numbers(data, 4, 4)
    totals, at = numbers(data, at + length, cores)
    begin, edges = at, 0
    for _ in range(cores if cores > 1 else 0):
        count, at = number(data, at)
        _, at = numbers(data, at, 3 * count)
        edges += count
    return sum(totals), edges, data[begin:at], data[at:]


def vectors(data, cores):
    """How many vectors the regulated log has."""
    at = found = 0
    for _ in range(cores * (cores - 1)):
        count, at = number(data, at)
        found += count
        for _ in range(count):
            (positions, _, _), at = numbers(data, at, 3)
            at = numbers(data, at, 2 if positions > 1 else 0)[1]
    return found


def sizes(log):
    packed = lzma.compress(log, preset=9 | lzma.PRESET_EXTREME)
    return f"{len(log):,} | {len(zlib.compress(log, 9)):,} | {len(packed):,}"


def main():
    if len(sys.argv) != 2:
        sys.exit(__doc__)
    tool = os.path.abspath(sys.argv[1])

    def made(words, given=b""):
        return subprocess.run([tool, *words], input=given, stdout=subprocess.PIPE, check=True).stdout

    print("| work | retired | edges | vectors | reduced | zlib | xz | regulated | zlib | xz |")
    print("|---|---|---|---|---|---|---|---|---|---|")
    for name, shape, words in WORKS:
        if shape:
            kind, given = shape.split()
            image = made(["gen", "--shape", kind, "--number", given])
        else:
            with open(f"{TOP}/{name}.image", "rb") as it:
                image = it.read()
        data = made(["record", *words.split()], image)
        retired, edges, reduced, regulated = parts(data)
        row = f"{retired:,} | {edges:,} | {vectors(regulated, number(data, 4)[0]):,}"
        print(f"| {name} | {row} | {sizes(reduced)} | {sizes(regulated)} |")


if __name__ == "__main__":
    main()
