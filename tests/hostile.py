#!/usr/bin/env python3
"""Tries the tool on hostile inputs and on refused memory.

  tests/hostile.py bytes [INPUTS [SEED]]   damaged recordings, certificates, ELF files and images (10,000 of them where
                                           no number is given), each to every command that reads one
  tests/hostile.py large [MEBIBYTES]       recordings of so many MiB (64) with the worst counts: seconds and peak memory
  tests/hostile.py growth                  the same at 4, 8, 16 and 32 MiB:
                                           the time of each is to be about twice that before
  tests/hostile.py memory                  a short run, its replay, certificate and check,
                                           each with every allocation failing in turn
  tests/hostile.py try [CALLS]             the same by `rt try --fail-alloc`,
                                           for the allocations of these numbers (1 2 4 8)
  tests/hostile.py again [CALLS]           tests that make what found no memory once more,
                                           with these allocations failing (1 2 4 8)

But for `again` it needs the built tool (crates/rtr/out/rtr, or the one that $RTR names), a C compiler for `memory`, and
Debian's time for `large` and `growth`. It ends with status 1 where a run crashed, hung, ended with a status outside the
table, or told or gave what its status doesn't allow, and where a test failed.
"""
import os
import random
import resource
import signal
import struct
import subprocess
import sys
import tempfile
import time
from concurrent.futures import ProcessPoolExecutor

TOP = os.path.dirname(os.path.dirname(os.path.abspath(__file__)))
TOOL = os.environ.get("RTR", os.path.join(TOP, "crates/rtr/out/rtr"))

# What the report of each status begins with.
REPORTS = {
    0: b"",
    1: b"rtr: usage\n",
    2: b"rtr: input too large\n",
    3: b"rtr: bad input, part ",
    4: b"rtr: stuck at ",
    5: b"rtr: core ",
    6: b"rtr: no order from ",
    7: b"rtr: ",
    8: b"rtr: read fault\n",
    9: b"rtr: write fault\n",
    10: b"rtr: out of memory\n",
    11: b"rtr: ",
    12: b"rtr: ",
    13: b"rtr: ",
    14: b"rtr: ",
}

# Commands that read a recording, a certificate, an ELF file or an image. One that the tool doesn't have is left out.
READERS = [
    ["print"],
    ["replay"],
    ["replay", "--log", "regulated", "--loads"],
    ["migrate"],
    ["certify"],
    ["check"],
    ["replay", "--threads", "2"],
    ["at", "--core", "0", "--count", "1"],
    ["thin"],
    ["checkthin"],
    ["tsoreplay", "--loads"],
]
ELF_READERS = [
    ["run", "--elf", "--words", "64", "--limit", "200"],
    ["record", "--elf", "--cores", "2", "--words", "64", "--limit", "200"],
]
IMAGE_READERS = [
    ["tsorun", "--cores", "3", "--words", "64", "--limit", "200"],
    ["tsorecord", "--cores", "3", "--words", "64", "--limit", "200"],
    ["run", "--cores", "3", "--words", "64", "--limit", "200"],
    ["record", "--cores", "3", "--words", "64", "--limit", "200"],
]

HANDED_OVER = bytes.fromhex("631a0500 93027000 23205004 03230004 73000000 83230004 2320a004 73000000")
HANDED_OVER_OPTIONS = ["--cores", "2", "--words", "32", "--choices", "00000001010101010101010101010101"]
# Two cores with store buffers that each load 0 past the other's store.
BUFFERED = bytes.fromhex(
    "52545203 02 904e 20 1c 13134500 93431500 13944300 93041000 23209304 83250404 73000000 0707 00 00 010600 010600"
)
OLD_RECORDING = bytes.fromhex("52545201 02 904e 10 0c 93025500 23205002 73000000 0303 010202 00 01010202 00")


class Run:
    """How the tool ended on an input."""

    def __init__(self, words, data, seconds=60, environment=None):
        with tempfile.TemporaryFile() as given, tempfile.TemporaryFile() as out, tempfile.TemporaryFile() as err:
            given.write(data)
            given.seek(0)
            files = [(os.POSIX_SPAWN_DUP2, file.fileno(), to) for to, file in enumerate((given, out, err))]
            start = time.monotonic()
            pid = os.posix_spawn(
                TOOL, [TOOL] + words, os.environ if environment is None else environment, file_actions=files
            )
            signal.signal(signal.SIGALRM, lambda _signal, _frame: os.kill(pid, signal.SIGKILL))
            signal.setitimer(signal.ITIMER_REAL, seconds)
            _, status = os.waitpid(pid, 0)
            signal.setitimer(signal.ITIMER_REAL, 0)
            self.seconds = time.monotonic() - start
            self.hung = self.seconds >= seconds
            self.status = os.waitstatus_to_exitcode(status)
            out.seek(0)
            err.seek(0)
            self.output = out.read()
            self.report = err.read()

    def fault(self):
        """What is wrong with how it ended, or None."""
        if self.hung:
            return "hung"
        if self.status < 0:
            return f"crashed by signal {-self.status}"
        if self.status not in REPORTS:
            return f"ended with status {self.status}"
        if not self.report.startswith(REPORTS[self.status]) or self.report.count(b"\n") != (self.status != 0):
            return f"ended with status {self.status} and the report {self.report!r}"
        if self.status != 0 and self.output:
            return f"ended with status {self.status} and {len(self.output)} bytes of output"
        return None


def ask(words, data):
    """The output of a run that has to succeed."""
    run = Run(words, data)
    if run.status != 0:
        sys.exit(f"{' '.join(words)} ended with status {run.status}: {run.report!r}")
    return run.output


def elf_file():
    """A file with two segments: a loop that counts up a word, and its words."""
    code = bytes.fromhex("93021000 03230004 33035300 23206004 e31803fe 73000000")
    header = struct.pack("<4sBBBB8xHHIIIIIHHHHHH", b"\x7fELF", 1, 1, 1, 0, 2, 243, 1, 8, 52, 0, 0, 52, 32, 2, 0, 0, 0)
    table = struct.pack("<IIIIIIII", 1, 116, 8, 8, len(code), len(code), 5, 4)
    table += struct.pack("<IIIIIIII", 1, 116 + len(code), 64, 64, 8, 16, 6, 4)
    return header + table + code + bytes([1, 0, 0, 0, 2, 0, 0, 0])


def corpus():
    """Inputs that are well formed, by what they are: recordings and certificates, ELF files, images."""
    lock = ask(["gen", "--shape", "lock", "--number", "10"], b"")
    mix = ask(["gen", "--shape", "mix", "--number", "3"], b"")
    recordings = [
        OLD_RECORDING,
        BUFFERED,
        ask(["record"], bytes.fromhex("73000000")),
        ask(["record"] + HANDED_OVER_OPTIONS, HANDED_OVER),
        ask(["record", "--cores", "2", "--limit", "10000", "--words", "128", "--seed", "7"], lock),
        ask(["record", "--cores", "4", "--limit", "300", "--words", "512", "--seed", "1"], mix),
        ask(["record", "--cores", "16", "--limit", "40", "--words", "512", "--seed", "2"], mix),
    ]
    certificates = [ask(["certify"], recording) for recording in recordings[2:]]
    return {"recording": recordings + certificates, "elf": [elf_file()], "image": [HANDED_OVER, lock, mix[:256]]}


def number(n):
    """The bytes of a number."""
    low = bytearray()
    while n >= 128:
        low.append(n % 128 + 128)
        n //= 128
    low.append(n)
    return bytes(low)


def flipped(rng, data, others):
    data = bytearray(data)
    for _ in range(rng.choice([1, 1, 1, 2, 8])):
        if data:
            data[rng.randrange(len(data))] ^= 1 << rng.randrange(8)
    return bytes(data)


def cut(rng, data, others):
    return data[: rng.randrange(len(data) + 1)]


def spliced(rng, data, others):
    other = rng.choice(others)
    return data[: rng.randrange(len(data) + 1)] + other[rng.randrange(len(other) + 1) :]


def counted(rng, data, others):
    """A number in the place of a byte: huge, over, longer than need be, or an edge of a range."""
    place = rng.randrange(len(data) + 1)
    count = rng.choice(
        [
            number(2**32 - 1),
            number(2**32),
            b"\x80\x80\x80\x80\x10",
            b"\x81\x00",
            number(2**31),
            number(1000001),
            number(65536),
        ]
        + [number(rng.randrange(2**32)), number(rng.randrange(300)), b"\x00", b"\x01", b"\xff"]
    )
    return data[:place] + count + data[place + 1 :]


def doubled(rng, data, others):
    start = rng.randrange(len(data) + 1)
    end = min(len(data), start + rng.randrange(1, 40))
    return data[:end] + data[start:end] + data[end:]


def dropped(rng, data, others):
    start = rng.randrange(len(data) + 1)
    return data[:start] + data[start + rng.randrange(1, 6) :]


def nudged(rng, data, others):
    """Bytes that stay numbers of one byte, one more or less: often well formed still."""
    data = bytearray(data)
    for _ in range(rng.choice([1, 1, 2, 4])):
        if data:
            place = rng.randrange(len(data) // 3, len(data))
            data[place] = data[place] & 128 | (data[place] + rng.choice([-1, 1])) & 127
    return bytes(data)


DAMAGES = [flipped, flipped, cut, spliced, counted, counted, doubled, dropped] + [nudged] * 8


def damaged(rng, inputs):
    """Of which kind, and bytes that were damaged once, twice or three times."""
    kind = rng.choices(["recording", "elf", "image"], [18, 1, 1])[0]
    data = rng.choice(inputs[kind])
    for _ in range(rng.choice([1, 1, 1, 2, 3])):
        data = rng.choice(DAMAGES)(rng, data, inputs[kind])
    return kind, data


def tried(job):
    """Feeds so many damaged inputs, and answers counts of statuses, the longest run and what was wrong."""
    seed, count, inputs, readers = job
    rng = random.Random(seed)
    statuses, wrong, longest = {}, [], (0.0, "", 0)
    for _ in range(count):
        kind, data = damaged(rng, inputs)
        parts = set()
        for words in readers[kind]:
            run = Run(words, data)
            fault = run.fault()
            name = " ".join(words)
            if fault:
                wrong.append(f"{name}: {fault}, on {data.hex()}")
            statuses[name, run.status] = statuses.get((name, run.status), 0) + 1
            longest = max(longest, (run.seconds, name, len(data)))
            if kind == "recording" and words[0] in ("print", "replay", "migrate", "certify"):
                parts.add(run.report if run.status == 3 else b"")
        if len(parts) > 1:
            wrong.append(f"commands name other parts, {parts}, on {data.hex()}")
    return statuses, wrong, longest


def known(readers):
    """Those that the tool has."""
    return [words for words in readers if Run(words, b"").status != 1]


def hostile_bytes(count, seed):
    inputs = corpus()
    readers = {"recording": known(READERS), "elf": known(ELF_READERS), "image": IMAGE_READERS}
    jobs = len(os.sched_getaffinity(0))
    chunk = 250
    start = time.monotonic()
    statuses, wrong, longest = {}, [], (0.0, "", 0)
    work = [(seed * 1000003 + k, min(chunk, count - k), inputs, readers) for k in range(0, count, chunk)]
    with ProcessPoolExecutor(jobs) as pool:
        for more, bad, long in pool.map(tried, work):
            for key, n in more.items():
                statuses[key] = statuses.get(key, 0) + n
            wrong += bad
            longest = max(longest, long)
    names = sorted({name for name, _ in statuses})
    for name in names:
        told = ", ".join(f"{s}: {n}" for (what, s), n in sorted(statuses.items()) if what == name)
        print(f"{name}: by status {told}")
    runs = sum(statuses.values())
    print(f"inputs {count} runs {runs} seconds {time.monotonic() - start:.0f}")
    print(f"longest {longest[0]:.3f} seconds: {longest[1]} of {longest[2]} bytes")
    return report(wrong)


def edge_counts(size):
    """A recording with as many edges as about so many bytes hold, each of three bytes: every instruction of a
    core has an edge from each other core."""
    cores, limit = 16, 250_000
    image, totals = bytes.fromhex("73000000"), number(limit) * cores
    head = b"RTR\x02" + number(cores) + number(limit) + number(4) + number(4) + image + totals
    parts, left = [head], size - len(head)
    for target in range(cores):
        sources = [s for s in range(cores) if s != target]
        one = b"".join(bytes([k == 0, s, 1]) for k, s in enumerate(sources))
        times = max(0, min(limit, left // len(one)))
        parts += [number(times * len(sources)), one * times]
        left -= times * len(one)
    return b"".join(parts) + bytes(cores * (cores - 1))


def vector_counts(size):
    """The same with vectors of one position, of three to seven bytes each."""
    cores, limit = 16, 250_000
    image, totals = bytes.fromhex("73000000"), number(limit) * cores
    head = b"RTR\x02" + number(cores) + number(limit) + number(4) + number(4) + image + totals
    parts, left = [head, bytes(cores)], size - len(head)
    vectors = [b"\x01" + number(k) * 2 for k in range(1, limit + 1)]
    whole = b"".join(vectors)
    for _ in range(cores * (cores - 1)):
        times = limit if len(whole) <= left else max(0, min(limit, left // 8))
        parts += [number(times), whole if times == limit else b"".join(vectors[:times])]
        left -= len(parts[-1])
    return b"".join(parts)


def claimed_counts(size):
    """The same as with edges, but each count claims the most that a number can say, and the bytes end."""
    recording = edge_counts(size)
    head = recording.index(bytes.fromhex("73000000")) + 4 + 16 * len(number(250_000))
    return recording[:head] + number(2**32 - 1) + recording[head + 4 :]


SHAPES = {"edges": edge_counts, "vectors": vector_counts, "claims": claimed_counts}


def measured(words, place):
    """Seconds, peak memory in KiB, status, bytes of output and of report of a run of the tool on a file."""
    told, out, err = place + ".told", place + ".out", place + ".err"
    start = time.monotonic()
    with open(place, "rb") as given, open(out, "wb") as output, open(err, "wb") as report_file:
        status = subprocess.run(
            ["/usr/bin/time", "-q", "-f", "%M", "-o", told, TOOL] + words,
            stdin=given,
            stdout=output,
            stderr=report_file,
        ).returncode
    seconds = time.monotonic() - start
    with open(told) as file:
        return seconds, int(file.read()), status, os.path.getsize(out), open(err, "rb").read()


def large(mebibytes):
    wrong = []
    print("shape bytes command status seconds peak-MiB peak/bytes output-MiB")
    with tempfile.TemporaryDirectory() as folder:
        for shape, make in SHAPES.items():
            place = os.path.join(folder, shape)
            with open(place, "wb") as file:
                file.write(make(mebibytes << 20))
            size = os.path.getsize(place)
            for words in known([["print"], ["migrate"], ["replay"], ["certify"], ["check"]]):
                seconds, peak, status, output, told = measured(words, place)
                if status not in REPORTS or not told.startswith(REPORTS[status]):
                    wrong.append(f"{shape} {' '.join(words)}: status {status}, report {told!r}")
                print(
                    f"{shape} {size} {' '.join(words)} {status} {seconds:.2f}"
                    f" {peak / 1024:.0f} {peak * 1024 / size:.2f} {output / 2**20:.0f}",
                    flush=True,
                )
    return report(wrong)


def growth():
    print("shape command seconds at 4, 8, 16 and 32 MiB")
    with tempfile.TemporaryDirectory() as folder:
        for shape, make in SHAPES.items():
            sizes = [os.path.join(folder, f"{shape}.{m}") for m in (4, 8, 16, 32)]
            for m, place in zip((4, 8, 16, 32), sizes):
                with open(place, "wb") as file:
                    file.write(make(m << 20))
            for words in [["print"], ["migrate"], ["replay"], ["check"]]:
                times = [measured(words, place)[0] for place in sizes]
                print(shape, " ".join(words), " ".join(f"{t:.2f}" for t in times), flush=True)
    return 0


PRELOAD = r"""
#define _GNU_SOURCE
#include <errno.h>
#include <stdlib.h>
#include <unistd.h>
extern void *__libc_malloc(size_t), *__libc_calloc(size_t, size_t), *__libc_realloc(void *, size_t),
    *__libc_memalign(size_t, size_t);
static long calls, failing = -2;
/* Counts a call that takes memory, and answers whether it is to fail; then a byte goes to descriptor 9. */
static int fails(void) {
    if (failing == -2) { const char *n = getenv("HOSTILE_FAILS"); failing = n ? atol(n) : -1; }
    if (__sync_add_and_fetch(&calls, 1) != failing) return 0;
    if (write(9, "x", 1) < 0) {}
    errno = ENOMEM;
    return 1;
}
void *malloc(size_t n) { return fails() ? 0 : __libc_malloc(n); }
void *calloc(size_t k, size_t n) { return fails() ? 0 : __libc_calloc(k, n); }
void *realloc(void *p, size_t n) { return fails() ? 0 : __libc_realloc(p, n); }
void *memalign(size_t a, size_t n) { return fails() ? 0 : __libc_memalign(a, n); }
void *aligned_alloc(size_t a, size_t n) { return fails() ? 0 : __libc_memalign(a, n); }
int posix_memalign(void **p, size_t a, size_t n) {
    if (fails()) return ENOMEM;
    *p = __libc_memalign(a, n);
    return *p ? 0 : ENOMEM;
}
"""


def rows():
    """The commands of a short run that was handed over, their inputs and their answers."""
    recording = ask(["record"] + HANDED_OVER_OPTIONS, HANDED_OVER)
    certificate = ask(["certify"], recording)
    row = [
        (["record"] + HANDED_OVER_OPTIONS, HANDED_OVER),
        (["run"] + HANDED_OVER_OPTIONS, HANDED_OVER),
        (["print"], recording),
    ]
    row += [(["replay"], recording), (["replay", "--threads", "2"], recording), (["migrate"], OLD_RECORDING)]
    row += [(["certify"], recording), (["check"], certificate), (["tsoreplay", "--loads"], BUFFERED)]
    row += [([word] + HANDED_OVER_OPTIONS, HANDED_OVER) for word in ("tsorun", "tsorecord")]
    return [(words, data) for words, data in row if Run(words, data).status == 0]


def refused_memory():
    wrong = []
    with tempfile.TemporaryDirectory() as place:
        source, library = os.path.join(place, "fails.c"), os.path.join(place, "fails.so")
        with open(source, "w") as file:
            file.write(PRELOAD)
        subprocess.run(["cc", "-O1", "-shared", "-fPIC", "-o", library, source], check=True)
        for words, data in rows():
            wanted = ask(words, data)
            refused = answered = 0
            for call in range(1, 1_000_000):
                told, mark = os.pipe()
                os.dup2(mark, 9, inheritable=True)
                os.close(mark)
                run = Run(words, data, environment={"LD_PRELOAD": library, "HOSTILE_FAILS": str(call)})
                os.close(9)
                failed = os.read(told, 1)
                os.close(told)
                if not failed:
                    break
                if run.fault() or not (run.status == 10 or (run.status == 0 and run.output == wanted)):
                    wrong.append(f"{' '.join(words)}, call {call} refused: {run.fault() or f'status {run.status}'}")
                refused += run.status == 10
                answered += run.status == 0
            print(
                f"{words[0]} {' '.join(words[1:3])}: {refused} runs ended out of memory, {answered} with the answer",
                flush=True,
            )
    return report(wrong)


def by_try(calls):
    wrong = []
    for words, data in rows():
        wanted = ask(words, data)
        for call in calls:
            command = ["rt", "try", "--fail-alloc", call, "--"] + words
            run = subprocess.run(command, cwd=os.path.join(TOP, "crates/rtr"), input=data, capture_output=True)
            last = (run.stdout + run.stderr).decode(errors="replace").strip().splitlines()[-1:]
            print(" ".join(words[:3]), f"with allocation {call} failing:", *last, flush=True)
            if not (run.returncode == 10 or (run.returncode == 0 and wanted in run.stdout)):
                wrong.append(f"{' '.join(words)}, allocation {call}: status {run.returncode}")
    return report(wrong)


AGAIN = {"machine_examples": "tso_", "recorder_examples": "recorded_tests::", "replay_examples": "tso_replays::"}


def made_again(calls):
    """Each of these tests has to pass whichever allocation fails."""
    wrong = []
    for crate, front in AGAIN.items():
        for call in calls:
            command = ["rt", "try", "--test", "--fail-alloc", call]
            run = subprocess.run(command, cwd=os.path.join(TOP, "crates", crate), capture_output=True)
            told = [line.split() for line in (run.stdout + run.stderr).decode(errors="replace").splitlines()]
            tests = [
                line for line in told if line[:1] == ["test"] and line[1].startswith(front) and line[1] != "result:"
            ]
            passed = [line for line in tests if line[-1] == "ok"]
            print(f"{crate} with allocation {call} failing: {len(passed)} of {len(tests)} tests passed", flush=True)
            if not tests or len(passed) < len(tests):
                wrong.append(f"{crate}, allocation {call}")
    return report(wrong)


def report(wrong):
    for line in wrong[:40]:
        print("wrong:", line)
    print("wrong:" if wrong else "nothing wrong", len(wrong) or "")
    return 1 if wrong else 0


def main(words):
    resource.setrlimit(resource.RLIMIT_CORE, (0, 0))
    if words[:1] == ["again"]:
        return made_again(words[1:] or ["1", "2", "4", "8"])
    if not os.access(TOOL, os.X_OK):
        sys.exit("build the tool first: (cd crates/rtr && rt run -- record) < crates/rtr/stdin")
    if words[:1] == ["bytes"]:
        return hostile_bytes(int(words[1]) if len(words) > 1 else 10_000, int(words[2]) if len(words) > 2 else 1)
    if words[:1] == ["large"]:
        return large(int(words[1]) if len(words) > 1 else 64)
    if words == ["growth"]:
        return growth()
    if words == ["memory"]:
        return refused_memory()
    if words[:1] == ["try"]:
        return by_try(words[1:] or ["1", "2", "4", "8"])
    sys.exit(__doc__)


if __name__ == "__main__":
    sys.exit(main(sys.argv[1:]))
