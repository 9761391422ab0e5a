#!/usr/bin/env python3
"""Measures the debugger's program: what a session's start and its moves take, beside `rtr at`.

usage: bench/debugger.py [RTR RTR_GDB]

The programs are the built ones where none are named. For each work it prints a line: the instructions and the bytes of
the recording, and the milliseconds of processor time of `rtr at` half way, of the session until its first answer, of a
step at the beginning, of `continue` to the end, of a step back from there, of `reverse-continue` to the last store to a
word, and of `reverse-continue` to the beginning. Each is the median of five.
"""
import os
import resource
import statistics
import struct
import subprocess
import sys
import tempfile

TOP = os.path.dirname(os.path.dirname(os.path.abspath(__file__)))
ROUNDS = 5
# Cores that each count up a word of their own, and every eighth time a word of all (0x40), until the limit stops them.
COUNTERS = [
    0x000F42B7, 0x24028293, 0x00451313, 0x10032383, 0x00138393, 0x10732023, 0x0073F413,
    0x00041863, 0x04002483, 0x00148493, 0x04902023, 0xFFF28293, 0xFC029EE3, 0x00000073,
]  # fmt: skip
# A name, what makes the image (words of `gen`, or none), the words of `record`, the cores, and a word whose value
# stores change.
WORKS = [
    ("lock, 500 rounds", "--shape lock --number 500", "--cores 2 --limit 100000 --words 128 --seed 7", 2, 0x130),
    ("mix 3", "--shape mix --number 3", "--cores 8 --limit 100000 --seed 5", 8, 0x510),
    ("counters", None, "--cores 4 --limit 1000000 --words 128 --seed 1", 4, 0x40),
]


def told(words, given):
    return subprocess.run(words, input=given, stdout=subprocess.PIPE, check=True).stdout


class Session:
    """A session over pipes, whose answers are timed."""

    def __init__(self, tool, recording):
        self.server = subprocess.Popen([tool, recording], stdin=subprocess.PIPE, stdout=subprocess.PIPE)

    def spent(self):
        """The processor time so far in milliseconds."""
        with open(f"/proc/{self.server.pid}/schedstat", encoding="ascii") as file:
            return int(file.read().split()[0]) / 1e6

    def ask(self, packet):
        """The answer to a packet."""
        body = packet.encode()
        self.server.stdin.write(b"$%s#%02x" % (body, sum(body) % 256))
        self.server.stdin.flush()
        answer = b""
        while not (answer[-3:-2] == b"#" and b"$" in answer):
            answer += os.read(self.server.stdout.fileno(), 65536)
        return answer[answer.index(b"$") + 1 : -3].decode()

    def timed(self, packet, want):
        """The milliseconds that a stop took, of which this has to be told."""
        before = self.spent()
        answer = self.ask(packet)
        taken = self.spent() - before
        if not (answer.startswith("T05thread:") and answer.split(";", 1)[1] == want):
            sys.exit(f"{packet} is answered {answer}, and not by {want}")
        return taken

    def end(self):
        self.ask("D")
        self.server.stdin.close()
        self.server.wait()


def of_children():
    """The processor time of the programs that have ended, in milliseconds."""
    used = resource.getrusage(resource.RUSAGE_CHILDREN)
    return 1000 * (used.ru_utime + used.ru_stime)


def place_of(tool, recording, total):
    """The milliseconds of processor time of the state half way along core 0."""
    words = [tool, "at", "--core", "0", "--count", str(total // 2)]
    before = of_children()
    with open(recording, "rb") as file:
        subprocess.run(words, stdin=file, stdout=subprocess.DEVNULL, check=True)
    return of_children() - before


def moves(tool, recording, word):
    """The milliseconds of the session's start and of its moves."""
    session = Session(tool, recording)
    session.ask("?")
    taken = [session.spent(), session.timed("vCont;s:1;c", ""), session.timed("vCont;c", "replaylog:end;")]
    taken.append(session.timed("bs", ""))
    session.ask(f"Z2,{word:x},4")
    taken.append(session.timed("bc", f"watch:{word:x};"))
    session.ask(f"z2,{word:x},4")
    taken.append(session.timed("bc", "replaylog:begin;"))
    session.end()
    return taken


def main():
    named = sys.argv[1:] or [f"{TOP}/crates/{name}/out/{name}" for name in ("rtr", "rtr_gdb")]
    if len(named) != 2:
        sys.exit(__doc__)
    rtr, debugger = named
    print("work, instructions, bytes, at, start, step, continue, step back, back to a store, back to the beginning")
    with tempfile.TemporaryDirectory() as place:
        recording = os.path.join(place, "recording")
        for name, shape, words, cores, word in WORKS:
            image = told([rtr, "gen", *shape.split()], b"") if shape else struct.pack(f"<{len(COUNTERS)}I", *COUNTERS)
            with open(recording, "wb") as file:
                file.write(told([rtr, "record", *words.split()], image))
            with open(recording, "rb") as file:
                text = told([rtr, "print"], file.read()).decode()
            totals = [int(line.split()[2]) for line in text.split("\n") if line.startswith("total")]
            rounds = [[place_of(rtr, recording, totals[0]), *moves(debugger, recording, word)] for _ in range(ROUNDS)]
            told_times = ", ".join(f"{statistics.median(times):.2f}" for times in zip(*rounds))
            print(f"{name} on {cores} cores, {sum(totals)}, {os.path.getsize(recording)}, {told_times}", flush=True)


main()
