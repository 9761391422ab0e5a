#!/usr/bin/env python3
"""Measures every command on every work, to compare two builds by, and draws how the cost grows.

usage: bench/table.py [--svg FILE] [--times N] [WORK..]

A WORK is one of lock-100, lock-500, lock-1000 (Peterson's lock on two cores, so many rounds), mix-2, mix-4, mix-8,
mix-16 (the third mix on so many cores, at most 100,000 instructions each) and walk-2 (two cores that walk over 32
blocks of one line of a cache, so that each access evicts); all of them where none is named.

Each line has the work, the command, how many instructions retired, the host instructions for each of them (by
callgrind, less those of the same command on an empty image), the user seconds (the least of N runs, 5 where nothing is
said), the peak memory in KiB and the bytes of output for 1,000 retired instructions. --svg draws the host instructions
a retired one of the works that were measured. It needs the built tool (crates/rtr/out/rtr, or the one that $RTR names),
and Debian's valgrind and time; of Python its own library alone.
"""
import argparse
import os
import re
import resource
import subprocess
import sys
import tempfile

TOP = os.path.dirname(os.path.dirname(os.path.abspath(__file__)))
TOOL = os.environ.get("RTR", os.path.join(TOP, "crates/rtr/out/rtr"))
REPLAYS = [["replay"], ["replay", "--log", "regulated"]] + [["replay", "--threads", str(k)] for k in (1, 2, 4)]
WORKS = ["lock-100", "lock-500", "lock-1000", "mix-2", "mix-4", "mix-8", "mix-16", "walk-2"]
COLOURS = ["#0072b2", "#d55e00", "#009e73", "#cc79a7", "#e69f00", "#56b4e9", "#999933", "#882255", "#444444"]


def load(to, offset, base):
    """LW."""
    return offset << 20 | base << 15 | 2 << 12 | to << 7 | 0x03


def add(to, of, number):
    """ADDI."""
    return (number & 0xFFF) << 20 | of << 15 | to << 7 | 0x13


def store(of, offset, base):
    """SW."""
    return (offset >> 5) << 25 | of << 20 | base << 15 | 2 << 12 | (offset & 31) << 7 | 0x23


def branch_unless_same(one, other, back):
    """BNE by so many bytes back."""
    offset = -back & 0x1FFF
    high, low = offset >> 12 << 31 | (offset >> 5 & 63) << 25, (offset >> 1 & 15) << 8 | (offset >> 11 & 1) << 7
    return high | other << 20 | one << 15 | 1 << 12 | low | 0x63


def walk():
    """x6 goes from 1,024 up by 256, the distance of blocks of one line, 32 times;
    each word on the way is counted up; that 100 times."""
    inner = [load(8, 0, 6), add(8, 8, 1), store(8, 0, 6), add(6, 6, 256), branch_unless_same(6, 7, 16)]
    upper = 2 << 12 | 7 << 7 | 0x37  # LUI x7, 2
    outer = [add(6, 0, 1024), upper, add(7, 7, 1024)] + inner + [add(5, 5, -1)]
    words = [add(5, 0, 100)] + outer + [branch_unless_same(5, 0, 4 * len(outer)), 0x73]
    return b"".join(word.to_bytes(4, "little") for word in words)


def run(words, data):
    """What the tool gives."""
    return subprocess.run([TOOL] + words, input=data, stdout=subprocess.PIPE, check=True).stdout


def made(work):
    """The image of a work, and the options of its run."""
    name, number = work.split("-")
    if name == "lock":
        image = run(["gen", "--shape", "lock", "--number", number], b"")
        return image, ["--cores", "2", "--limit", "100000", "--words", "128", "--seed", "7"]
    if name == "mix":
        image = run(["gen", "--shape", "mix", "--number", "3"], b"")
        return image, ["--cores", number, "--limit", "100000"]
    return walk(), ["--cores", number, "--limit", "100000", "--words", "4096", "--seed", "7"]


def host(words, path):
    """The host instructions of a command."""
    call = ["valgrind", "--tool=callgrind", "--callgrind-out-file=/dev/null", TOOL] + words
    with open(path, "rb") as data:
        told = subprocess.run(call, stdin=data, stdout=subprocess.DEVNULL, stderr=subprocess.PIPE, check=True).stderr
    return int(re.search(rb"Collected : (\d+)", told).group(1))


def seconds(words, path, times):
    """The least user time of a command in so many runs, and its peak memory in KiB."""
    least, peak = None, 0
    for _ in range(times):
        with open(path, "rb") as data:
            call = ["/usr/bin/time", "-f", "%U %M", TOOL] + words
            told = subprocess.run(
                call, stdin=data, stdout=subprocess.DEVNULL, stderr=subprocess.PIPE, check=True
            ).stderr
        user, most = told.split()[-2:]
        least = float(user) if least is None else min(least, float(user))
        peak = max(peak, int(most))
    return least, peak


def lines(work, times, place):
    """A work's lines, one for each command."""
    image, options = made(work)
    state = run(["run"] + options, image)
    retired = sum(int(it) for it in re.findall(rb"^core \d+ \w+ retired (\d+)", state, re.M))
    inputs = {}
    for name, start in (("whole", image), ("empty", b"")):
        recording = run(["record"] + options, start)
        inputs[name] = {
            "image": start,
            "recording": recording,
            "certificate": run(["certify"], recording),
            "nothing": b"",
        }
    commands = [(["record"] + options, "image"), (["run"] + options, "image")]
    commands += [(words, "recording") for words in REPLAYS] + [(["certify"], "recording"), (["check"], "certificate")]
    if work.startswith("mix"):
        commands.append((["soak", "--shape", "mix", "--number", "3"] + options, "nothing"))
    for words, kind in commands:
        paths = {}
        for name in inputs:
            paths[name] = os.path.join(place, name)
            with open(paths[name], "wb") as out:
                out.write(inputs[name][kind])
        said = " ".join(it for it in words if it not in options or words[0] not in ("record", "run", "soak"))
        base = 0 if kind == "nothing" else host(words, paths["empty"])
        cost = (host(words, paths["whole"]) - base) / retired
        user, peak = seconds(words, paths["whole"], times)
        out = len(run(words, inputs["whole"][kind]))
        yield work, said, retired, round(cost), user, peak, round(out * 1000 / retired)


def picture(rows):
    """The host instructions a retired one of each command, work by work."""
    works = list(dict.fromkeys(row[0] for row in rows))
    commands = list(dict.fromkeys(row[1] for row in rows))
    top = max(row[3] for row in rows)
    wide, high, left, low = 110 * len(works) + 260, 380, 70, 330
    at = {work: left + 50 + 110 * k for k, work in enumerate(works)}
    parts = [f'<svg xmlns="http://www.w3.org/2000/svg" width="{wide}" height="{high}" viewBox="0 0 {wide} {high}">']
    parts.append("<style>svg{font:13px sans-serif;background:#fff;color:#1a1a1a}text{fill:currentColor}")
    parts.append("@media(prefers-color-scheme:dark){svg{background:#16181c;color:#e8e8e8}}</style>")
    parts.append('<text x="10" y="20">host instructions for each retired one</text>')
    for mark in range(0, 5):
        value, y = round(top * mark / 4), low - 290 * mark / 4
        parts.append(f'<path d="M{left} {y:.0f}H{wide - 180}" stroke="currentColor" opacity=".2"/>')
        parts.append(f'<text x="{left - 6}" y="{y + 4:.0f}" text-anchor="end">{value}</text>')
    for work in works:
        parts.append(f'<text x="{at[work]}" y="{low + 20}" text-anchor="middle">{work}</text>')
    for k, command in enumerate(commands):
        colour = COLOURS[k % len(COLOURS)]
        points = [(at[row[0]], low - 290 * row[3] / top) for row in rows if row[1] == command]
        parts.append(
            f'<path d="M{" L".join(f"{x:.0f} {y:.0f}" for x, y in points)}"'
            f' stroke="{colour}" fill="none" stroke-width="2"/>'
        )
        parts += [f'<circle cx="{x:.0f}" cy="{y:.0f}" r="3" fill="{colour}"/>' for x, y in points]
        parts.append(f'<text x="{wide - 165}" y="{40 + 18 * k}" style="fill:{colour}">{command}</text>')
    return "\n".join(parts + ["</svg>", ""])


def main():
    """Prints the table, and draws."""
    words = argparse.ArgumentParser(description="Measures every command on every work.")
    words.add_argument("--svg")
    words.add_argument("--times", type=int, default=5)
    words.add_argument("works", nargs="*", metavar="WORK")
    asked = words.parse_args()
    faulty = [work for work in asked.works if work not in WORKS]
    if faulty or not os.access(TOOL, os.X_OK):
        sys.exit(
            f"no work {faulty[0]}"
            if faulty
            else "build the tool first: (cd crates/rtr && rt run -- record) < crates/rtr/stdin"
        )
    resource.setrlimit(resource.RLIMIT_CORE, (0, 0))
    rows = []
    print(
        "| work | command | retired | host instructions a retired one"
        " | user seconds | peak memory, KiB | bytes a 1,000 retired |"
    )
    print("|---|---|---|---|---|---|---|", flush=True)
    with tempfile.TemporaryDirectory() as place:
        for work in asked.works or WORKS:
            for row in lines(work, asked.times, place):
                rows.append(row)
                print("| " + " | ".join(str(it) for it in row) + " |", flush=True)
    if asked.svg:
        with open(asked.svg, "w", encoding="utf-8") as out:
            out.write(picture(rows))


if __name__ == "__main__":
    main()
