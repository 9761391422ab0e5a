#!/usr/bin/env python3
"""How often the workers of the threaded replay wait.

usage: bench/waits.py FOLDER [TIMES]

It adds counters to the proved tool's module: each thread counts for itself, and the counts are added up where a group's
work ends. FOLDER is for what it makes, and can be used again. Each work of bench/threads.sh is replayed TIMES times (11
where the word is missing) by the reduced log with 1, 2 and 4 threads, and each answer compared with that of `replay`.
It prints the rows of a table: a work, its cores, the threads, and the medians of the waits for a source, loads of done
words, publications, turns that are given up, passes in which a group sees nothing, and rounds.
"""
import os
import re
import statistics
import subprocess
import sys

sys.dont_write_bytecode = True
from module import CRATE, TOP, defined, module_lines, program  # noqa: E402

TOOL = f"{CRATE}/out/rtr"
AWAIT = "replay_threads::waits::await_source"
# The closure that does a group's work in a round.
GROUP = "replay_threads::groups::fn::one_round::for_each_mut"
ROUND = "replay_threads::groups::one_round"
# What is counted, by columns: how often each of these functions is called, and, by "given up", how often a wait ends in
# vain. A thread is yielded only after a pass in which a group sees nothing.
COUNTED = [AWAIT, "replay_threads::waits::look", "replay_table::table::ReplayTable::publish", "given up"]
COUNTED += ["core::sync::yield_now", ROUND]
GIVEN_UP = COUNTED.index("given up")
COUNTS = len(COUNTED)
LIST = f"[{COUNTS} x i64]"
FORM = f"counts{' %ld' * COUNTS}\\0A\\00"
DECLARED = [
    f"@counts = internal thread_local global {LIST} zeroinitializer, align 64",
    f"@totals = internal global {LIST} zeroinitializer, align 64",
    f'@form = private constant [{len("counts") + 4 * COUNTS + 2} x i8] c"{FORM}"',
    "declare i32 @dprintf(i32, ptr, ...)",
    "declare ptr @llvm.threadlocal.address.p0(ptr)",
]
# A name, the cores, and how bench/measure.sh says the image.
WORKS = [
    ("Peterson's lock, 500 rounds", 2, "lock 500"),
    ("every eighth time", 4, "counters"),
    ("every 64th time", 4, "loners 64"),
    ("every 64th time", 8, "loners 64"),
    ("every 512th time", 2, "loners 512"),
    ("every 512th time", 4, "loners 512"),
    ("mix 3", 4, '"$tool" gen --shape mix --number 3'),
]


def added(name, k, more="1"):
    """The lines that add to the thread's k-th count, by values of this name."""
    return [
        f"  %{name}_all = call ptr @llvm.threadlocal.address.p0(ptr @counts)",
        f"  %{name}_at = getelementptr {LIST}, ptr %{name}_all, i64 0, i64 {k}",
        f"  %{name}_old = load i64, ptr %{name}_at, align 8",
        f"  %{name}_new = add i64 %{name}_old, {more}",
        f"  store i64 %{name}_new, ptr %{name}_at, align 8",
    ]


def before(function, line, at):
    """The lines that a function's line has before it."""
    if function == AWAIT and line.startswith("  ret i1 "):
        given = [f"  %not_{at} = xor i1 {line.split()[2]}, true", f"  %more_{at} = zext i1 %not_{at} to i64"]
        return given + added(f"given_{at}", GIVEN_UP, f"%more_{at}")
    if function in (GROUP, ROUND) and line == "  ret void":
        return ["  call void @add_up()"] + ["  call void @tell()"] * (function == ROUND)
    return []


def with_counters(lines):
    """The module with its counters."""
    missing = {*COUNTED, GROUP} - {"given up"} - {defined(line) for line in lines}
    if missing:
        sys.exit(f"the module has no {', '.join(missing)}")
    made, function, first = [], None, False
    for at, line in enumerate(lines):
        name = defined(line)
        if name:
            function, first = name, True
        made += before(function, line, at) if function else []
        made.append(line)
        if first and re.match(r"[\w.]+:", line):
            made += added("entered", COUNTED.index(function)) if function in COUNTED else []
            first = False
        function = None if line == "}" else function
    return [*made, *DECLARED, "", *add_up(), *tell()]


def add_up():
    """The function that adds a thread's counts to those of all, and begins anew."""
    yield "define internal void @add_up() noinline {"
    yield "  %own = call ptr @llvm.threadlocal.address.p0(ptr @counts)"
    for k in range(COUNTS):
        yield f"  %at{k} = getelementptr {LIST}, ptr %own, i64 0, i64 {k}"
        yield f"  %count{k} = load i64, ptr %at{k}, align 8"
        yield f"  store i64 0, ptr %at{k}, align 8"
        yield f"  %of_all{k} = getelementptr {LIST}, ptr @totals, i64 0, i64 {k}"
        yield f"  %before{k} = atomicrmw add ptr %of_all{k}, i64 %count{k} seq_cst"
    yield from ["  ret void", "}"]


def tell():
    """The function that prints the counts of all on the report."""
    yield "define internal void @tell() noinline {"
    for k in range(COUNTS):
        yield f"  %at{k} = getelementptr {LIST}, ptr @totals, i64 0, i64 {k}"
        yield f"  %count{k} = load i64, ptr %at{k}, align 8"
    counts = ", ".join(f"i64 %count{k}" for k in range(COUNTS))
    yield f"  %told = call i32 (i32, ptr, ...) @dprintf(i32 2, ptr @form, {counts})"
    yield from ["  ret void", "}"]


def told(words, given):
    """What a program did, which has to end well."""
    return subprocess.run(words, input=given, capture_output=True, check=True)


def counts(tool, recording, threads, answer):
    """The counts of a replay, whose answer has to be this one."""
    ran = told([tool, "replay", "--threads", str(threads)], recording)
    if ran.stdout != answer:
        sys.exit("a replay on threads has another answer")
    # Each round tells the sums so far, so the last line has them all.
    lines = [line for line in ran.stderr.decode().split("\n") if line.startswith("counts")]
    return [int(word) for word in lines[-1].split()[1:]]


def main():
    """Prints the rows."""
    if len(sys.argv) not in (2, 3):
        sys.exit(__doc__)
    folder = os.path.realpath(sys.argv[1])
    times = int(sys.argv[2]) if len(sys.argv) == 3 else 11
    os.makedirs(folder, exist_ok=True)
    tool = program(folder, "counted", with_counters(module_lines(folder)))
    for work, cores, made in WORKS:
        image = told(["bash", "-c", f"cd '{TOP}' && . bench/measure.sh && {made}"], b"").stdout
        options = f"--cores {cores} --limit 100000 --words 2048 --seed 7"
        recording = told([TOOL, "record", *options.split()], image).stdout
        answer = told([TOOL, "replay"], recording).stdout
        for threads in (1, 2, 4):
            rows = [counts(tool, recording, threads, answer) for _ in range(times)]
            medians = (str(int(statistics.median(column))) for column in zip(*rows))
            print(f"| {work} | {cores} | {threads} | {' | '.join(medians)} |", flush=True)


if __name__ == "__main__":
    main()
