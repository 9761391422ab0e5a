#!/usr/bin/env python3
"""Measures how many bytes a recording has in each version of the format.

usage: bench/versions.py [--tool COMMAND] [PROGRAM CORES ROUNDS].. [--migrate]

PROGRAM is `peterson` (two cores that take Peterson's lock), `lock` (any number of cores that take a lock by an atomic
swap) or `apart` (each core counts up a word of its own, and adds to a shared one at its end). Where none is named, the
table of docs/MEASURED.md is measured. For each it prints a line with the cores, the instructions that retired, the
edges of the reduced log, the vectors of the regulated one, the bytes of version 1 and of version 2, and both for each
1,000 instructions.

The tool writes version 2. What version 1 takes is worked out here from the same edges, laid out by pair; of more than
eight cores version 1 has no recordings, and the number is what its layout would take. With --migrate the tool is
asked to migrate those bytes, which must give what it recorded. It needs the built tool (crates/rtr/out/rtr).
"""
import argparse
import pathlib
import re
import shlex
import subprocess
import sys

TABLE = [("peterson", 2, rounds) for rounds in (10, 100, 500, 1000)]
TABLE += [("lock", 8, 20), ("lock", 16, 20), ("apart", 8, 100), ("apart", 16, 100)]
OLD_CORES_MAX = 8


def immediate(opcode, f3, rd, rs1, value):
    return (value & 0xFFF) << 20 | rs1 << 15 | f3 << 12 | rd << 7 | opcode


def add_immediate(rd, rs1, value):
    return immediate(0x13, 0, rd, rs1, value)


def shift_left(rd, rs1, by):
    return immediate(0x13, 1, rd, rs1, by)


def load(rd, offset, rs1):
    return immediate(0x03, 2, rd, rs1, offset)


def store(rs2, offset, rs1):
    return (offset >> 5 & 0x7F) << 25 | rs2 << 20 | rs1 << 15 | 2 << 12 | (offset & 0x1F) << 7 | 0x23


def branch_unequal(rs1, rs2, by):
    high = (by >> 12 & 1) << 31 | (by >> 5 & 0x3F) << 25
    return high | rs2 << 20 | rs1 << 15 | 1 << 12 | (by >> 1 & 0xF) << 8 | (by >> 11 & 1) << 7 | 0x63


def atomic(operation, rd, rs2, rs1):
    return operation << 27 | rs2 << 20 | rs1 << 15 | 2 << 12 | rd << 7 | 0x2F


ADD, SWAP, ECALL = 0, 1, 0x73


def peterson(rounds):
    loop = [
        0x00451313, 0x00154393, 0x00439413, 0x00100493, 0x10932023, 0x12702023, 0x10042583, 0x00058663, 0x12002603,
        0xFE760AE3, 0x13002683, 0x00168693, 0x12D02823, 0x10032023, 0xFFF28293, 0xFC029AE3,
    ]
    return [add_immediate(5, 0, rounds), *loop, ECALL]


def lock(rounds):
    return [
        add_immediate(5, 0, rounds), add_immediate(7, 0, 0x100), add_immediate(9, 0, 0x140), add_immediate(8, 0, 1),
        atomic(SWAP, 6, 8, 7), branch_unequal(6, 0, -4),
        load(6, 0, 9), add_immediate(6, 6, 1), store(6, 0, 9), store(0, 0, 7),
        add_immediate(5, 5, -1), branch_unequal(5, 0, -28), ECALL,
    ]


def apart(rounds):
    return [
        add_immediate(5, 0, rounds), shift_left(7, 10, 4), add_immediate(9, 0, 0x100), add_immediate(8, 0, 1),
        load(6, 0x110, 7), add_immediate(6, 6, 1), store(6, 0x110, 7),
        add_immediate(5, 5, -1), branch_unequal(5, 0, -16), atomic(ADD, 6, 8, 9), ECALL,
    ]


PROGRAMS = {"peterson": peterson, "lock": lock, "apart": apart}


def image_of(words):
    return b"".join(word.to_bytes(4, "little") for word in words)


def spelled(number):
    out = bytearray()
    while number > 127:
        out.append(number & 127 | 128)
        number >>= 7
    out.append(number)
    return bytes(out)


class Reader:
    def __init__(self, data):
        self.data, self.at = data, 0

    def number(self):
        value, shift = 0, 0
        while True:
            byte = self.data[self.at]
            self.at += 1
            value |= (byte & 127) << shift
            shift += 7
            if byte < 128:
                return value

    def take(self, length):
        self.at += length
        return self.data[self.at - length:self.at]


def by_pair(recording):
    """The recording's bytes in version 1, the sum of its totals, and the number of its edges."""
    reader = Reader(recording)
    if reader.take(4) != b"RTR\2":
        raise SystemExit("the tool gave no recording of version 2")
    cores = reader.number()
    reader.number()
    reader.number()
    reader.take(reader.number())
    totals = [reader.number() for _ in range(cores)]
    front = b"RTR\1" + recording[4:reader.at]
    pairs = {(i, j): [] for i in range(cores) for j in range(cores) if i != j}
    for target in range(cores if cores > 1 else 0):
        last_b = 0
        for _ in range(reader.number()):
            last_b += reader.number()
            edges = pairs[reader.number(), target]
            edges.append(((edges[-1][0] if edges else 0) + reader.number(), last_b))
    part = b""
    for edges in pairs.values():
        part += spelled(len(edges))
        last = (0, 0)
        for a, b in edges:
            part += spelled(b - last[1]) + spelled(a - last[0])
            last = (a, b)
    return front + part + recording[reader.at:], sum(totals), sum(map(len, pairs.values()))


def main():
    parser = argparse.ArgumentParser(description=__doc__, formatter_class=argparse.RawDescriptionHelpFormatter)
    parser.add_argument("--tool", default=str(pathlib.Path(__file__).parent.parent / "crates/rtr/out/rtr"))
    parser.add_argument("--migrate", action="store_true")
    parser.add_argument("rows", nargs="*")
    arguments = parser.parse_args()
    tool = shlex.split(arguments.tool)
    rows = list(zip(arguments.rows[::3], map(int, arguments.rows[1::3]), map(int, arguments.rows[2::3]))) or TABLE

    def ask(words, data):
        return subprocess.run([*tool, *words], input=data, stdout=subprocess.PIPE, check=True).stdout

    print("program cores retired edges vectors version-1 version-2 version-1/1,000 version-2/1,000", flush=True)
    for name, cores, rounds in rows:
        words = f"record --cores {cores} --limit 100000 --words 256 --seed 7".split()
        new = ask(words, image_of(PROGRAMS[name](rounds)))
        old, retired, edges = by_pair(new)
        vectors = re.search(rb"regulated (\d+) vectors", ask(["print"], new))[1].decode()
        each = [f"{1000 * len(data) / retired:.0f}" for data in (old, new)]
        print(name, cores, retired, edges, vectors, len(old), len(new), *each, flush=True)
        if arguments.migrate and cores <= OLD_CORES_MAX and ask(["migrate"], old) != new:
            sys.exit(f"{name}: what version 1 migrates to is not what was recorded")


if __name__ == "__main__":
    main()
