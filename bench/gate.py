#!/usr/bin/env python3
"""Measures the gate: how many minutes of the processor each part of it and each crate takes.

usage: bench/gate.py [PID]

It runs `rt ci` at the top of the repository, whose output goes to standard error, or follows the one that PID is. Twice
a second it looks at the processes below, so what lives for less is missed, and what a process does after the last look
too. Then it prints one table: by part of the gate the minutes of the processor, and the five crates that take most,
with their seconds. The parts are proofs, proofs of tests, the proofs that wrong bodies are tried over (a crate with
more than one is proved once more for it), wrong bodies, and programs: compilers, linkers, tests and programs that run,
and `rt` itself. It ends with the gate's status.
"""
import collections
import os
import subprocess
import sys
import time

TOP = os.path.dirname(os.path.dirname(os.path.abspath(__file__)))
TICKS = os.sysconf("SC_CLK_TCK")
PAUSE = 0.5
# How many crates are named for each part.
DEAREST = 5
PARTS = ["proofs", "tests", "proofs under wrong bodies", "wrong bodies", "programs"]


def text_of(path):
    with open(path, "rb") as it:
        return it.read()


def stat_of(pid):
    """A process's parent, when it began, and its ticks of the processor so far."""
    fields = text_of(f"/proc/{pid}/stat").rsplit(b")", 1)[1].split()
    return int(fields[1]), int(fields[19]), int(fields[11]) + int(fields[12])


def kind_of(pid):
    """Which part of the gate a process belongs to, and which crate."""
    words = text_of(f"/proc/{pid}/cmdline").decode(errors="replace").split("\0")
    if os.path.basename(words[0]) != "rattle" or "--crate-name" not in words:
        return "programs", ""
    crate = words[words.index("--crate-name") + 1]
    if "rt-edit-" in os.readlink(f"/proc/{pid}/cwd"):
        is_seed = any(word.endswith("/seed") for word in words)
        return "proofs under wrong bodies" if is_seed else "wrong bodies", crate
    return "tests" if "--test" in words or crate.endswith("_tests") else "proofs", crate


def below(top):
    """All processes below this one, and itself."""
    parents = {}
    for name in filter(str.isdigit, os.listdir("/proc")):
        try:
            parents[int(name)] = stat_of(name)[0]
        except OSError:
            continue
    found = {top}
    while True:
        more = {pid for pid, parent in parents.items() if parent in found} - found
        if not more:
            return found
        found |= more


def look(top, seen):
    for pid in below(top):
        try:
            _, begun, ticks = stat_of(pid)
            if (pid, begun) not in seen or seen[pid, begun][0][0] == "programs":
                seen[pid, begun] = (kind_of(pid), ticks)
            seen[pid, begun] = (seen[pid, begun][0], ticks)
        except (OSError, ValueError):
            continue


def tell(seen, seconds):
    parts, crates = collections.Counter(), collections.defaultdict(collections.Counter)
    for (part, crate), ticks in seen.values():
        parts[part] += ticks / TICKS / 60
        if crate:
            crates[part][crate] += ticks / TICKS
    print("| part | minutes of the processor | crates that take most, seconds |\n|---|---|---|")
    for part in PARTS:
        dearest = ", ".join(f"`{crate}` {took:.0f}" for crate, took in crates[part].most_common(DEAREST))
        print(f"| {part} | {parts[part]:.1f} | {dearest} |")
    print(f"| all, in {seconds / 60:.0f} minutes by the clock | {sum(parts.values()):.1f} | |")


def main():
    if len(sys.argv) > 2:
        sys.exit(__doc__)
    gate = None if len(sys.argv) == 2 else subprocess.Popen(["rt", "ci"], cwd=TOP, stdout=sys.stderr)
    top, seen, begun = int(sys.argv[1]) if gate is None else gate.pid, {}, time.monotonic()
    while gate.poll() is None if gate else os.path.exists(f"/proc/{top}"):
        look(top, seen)
        time.sleep(PAUSE)
    tell(seen, time.monotonic() - begun)
    sys.exit(gate.returncode if gate else 0)


if __name__ == "__main__":
    main()
