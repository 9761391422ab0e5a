#!/usr/bin/env python3
"""Where the host instructions of `record` go, by the functions that they were written in.

usage: bench/parts.py FOLDER

It gives each function of the proved tool's module a line of its own, as its place, and checks that this leaves the
machine code as it is. Then callgrind counts each instruction, and `addr2line` tells from which functions the compiler
made it. An instruction counts for the innermost of these that a part names. FOLDER is for what it makes, and
can be used again. It needs Debian's valgrind and binutils. It prints the rows of a table, in millions: a part, the lock
of 500 rounds on two cores, and mix 3 on eight and on sixteen.
"""
import os
import re
import subprocess
import sys

sys.dont_write_bytecode = True
from module import CRATE, defined, done, module_lines, program  # noqa: E402

LOCK, MIX = "--shape lock --number 500", "--shape mix --number 3"
WORKS = [
    ("lock", LOCK, "--cores 2 --limit 100000 --words 128 --seed 7"),
    ("mix8", MIX, "--cores 8 --limit 100000 --seed 5"),
    ("mix16", MIX, "--cores 16 --limit 100000 --seed 5"),
]
# All that was put in line in these functions is theirs.
WHOLE = [
    ("after a turn of the home: whose oldest request is for its block", r"msi_memory::memory::asks|memory::askers$"),
    ("after a turn of the home: who hears of it, and their marks", r"move_marks::marking::|msi_memory::port::hear$"),
]
# Of the others the first that fits a function has it.
PARTS = [
    ("the schedule's next choice", r"^schedule_pick::|^rand_pcg::"),
    (
        "how many moves are marked, the division, and the mark of that number",
        r"move_marks::sets::(nth|count|first_of)$|MoveMarks::(pick|pick_at_port|pick_of|count|set_of)$",
    ),
    (
        "whether the run is at its end, room at the home, room for the log",
        r"::done$|::ready$|Machine::make_room$|late::make_room$|MemorySystem::make_room$|rooms::make_|Home::make_room$",
    ),
    ("marks of a core after its move or message, and of the core that asked", r"^move_marks::|::all_marks$"),
    ("what is known joined, as messages come", r"^clock_core::clock::Clock::join$"),
    ("riders absorbed", r"(Times|Rider|LastWrite|Reads|Held)::absorb$|::is_newer$|::is_same$"),
    ("riders copied", r"::copy_from$|(Reads|LastWrite)::clear$|::hand_over$"),
    ("an instruction carried out, and what the next one needs", r"^rv_|^image_mem::|::look_ahead$"),
    ("reduction", r"^online_reduce::"),
    ("regulator", r"^edge_regulate::|^stride_vector::"),
    ("the recording written", r"^log_codec::|^varint_core::"),
    ("links: oldest and newest place, dropping", r"^link_order::"),
    ("the home's entry: found, and the table's row", r"^msi_directory::|^indexmap::"),
    (
        "messages written, read, answered and sent",
        r"^msi_memory::(sending|answering|port)::|^msi_cache::(slots|messages)::|MemorySystem::(take_|want$)",
    ),
    ("a cache's line: asked, found, filled, given up", r"^msi_cache::"),
    (
        "from step to step, and to the kind of move",
        r"RunClerk::tell$|::step$|::make_move$|::move_core$|^recorder::run::|::step_timed$|^run_steps::"
        r"|Parts::(take_message|receive)$",
    ),
    (
        "the rest of a retirement and of a core's move",
        r"retire|Parts::work$|^know_history::|^recorder::run_clerk::|MemorySystem::|Times::(on_|readers$)"
        r"|Clock::(set|get|covers)$",
    ),
]
MEMORY = "memory taken, cleared and copied"
OF_MEMORY = re.compile(r"mem(set|cpy|move)|alloc|free|brk|mmap|munmap|mremap")
REST = "the rest, with the loader"
# The numbers of places are above those that the module uses, which the compiler would refuse twice.
BASE = 100000
DEBUG_INFO = """!llvm.module.flags = !{!90000, !90001}
!llvm.dbg.cu = !{!90002}
!90000 = !{i32 2, !"Debug Info Version", i32 3}
!90001 = !{i32 7, !"Dwarf Version", i32 4}
!90002 = distinct !DICompileUnit(language: DW_LANG_C, file: !90003, isOptimized: true, emissionKind: FullDebug)
!90003 = !DIFile(filename: "module", directory: ".")
!90004 = !DISubroutineType(types: !90005)
!90005 = !{null}""".split("\n")


def placed(lines):
    """The module whose k-th function has line k as its place, and the functions' names."""
    made, names, open_list, inside = [], [], False, False
    for line in lines:
        name = defined(line)
        if name:
            names.append(name)
            inside, line = True, f"{line[:-1]}!dbg !{BASE + 2 * len(names)} {{"
        elif inside and line.startswith("  "):
            # The cases of a `switch` are lines of one instruction.
            open_list = line.endswith("[") or (open_list and line.strip() != "]")
            line += "" if open_list else f", !dbg !{BASE + 2 * len(names) + 1}"
        inside = inside and line != "}"
        made.append(line)
    return made + DEBUG_INFO + [it for k in range(1, len(names) + 1) for it in place(k)], names


def place(k):
    """What says that the k-th function has line k."""
    function = f"!{BASE + 2 * k}"
    said = f'name: "f{k}", scope: !90003, file: !90003, line: {k}, type: !90004, scopeLine: {k}, unit: !90002'
    flags = "spFlags: DISPFlagDefinition | DISPFlagOptimized"
    yield f"{function} = distinct !DISubprogram({said}, {flags})"
    yield f"!{BASE + 2 * k + 1} = !DILocation(line: {k}, column: 1, scope: {function})"


def counted(folder, tool, work, shape, options):
    """Callgrind's counts of a work: of the tool's by address, and of the libraries' by function."""
    image = subprocess.run([tool, "gen", *shape.split()], stdout=subprocess.PIPE, check=True).stdout
    kept = f"{folder}/{work}.callgrind"
    count = ["valgrind", "--tool=callgrind", "--dump-instr=yes", "--dump-line=no", f"--callgrind-out-file={kept}"]
    subprocess.run([*count, tool, "record", *options.split()], input=image, capture_output=True, check=True)
    with open(kept, encoding="utf-8") as file:
        return counts_of(file, tool)


def counts_of(lines, tool):
    """The counts of callgrind's file: of the tool's instructions by address, and of others by function."""
    own, others, names, last = {}, {}, {}, 0
    of, skip = {"ob": "", "fn": ""}, False
    for line in lines:
        named = re.match(r"(c?)(ob|fn)=\((\d+)\)(?: (.*))?$", line)
        if named:
            called, kind, number, name = named.groups()
            names[kind, number] = name or names[kind, number]
            if not called:
                of[kind] = names[kind, number]
            continue
        # The line after this one has what the called function took.
        if line.startswith("calls="):
            skip = True
            continue
        cost = re.match(r"(0x[0-9a-f]+|[+-]\d+|\*)(?: (\d+))?$", line)
        if not cost or not of["ob"]:
            continue
        step = cost[1]
        last = int(step, 0) if step[0] == "0" else last + (0 if step == "*" else int(step))
        if not skip:
            key, into = (last, own) if of["ob"] == tool else (of["fn"], others)
            into[key] = into.get(key, 0) + int(cost[2] or 0)
        skip = False
    return own, others


def chains(folder, tool, addresses, names):
    """For each address the functions that its instruction was written in, the innermost first."""
    with open(f"{folder}/addresses", "w+", encoding="ascii") as file:
        file.write("\n".join(map(hex, addresses)))
        file.seek(0)
        told = done(["addr2line", "-a", "-f", "-i", "-e", tool], stdin=file)
    found, chain = {}, []
    for line in told.split("\n"):
        if line.startswith("0x"):
            chain = found.setdefault(int(line, 16), [])
        elif re.fullmatch(r"f\d+", line):
            chain.append(names[int(line[1:]) - 1])
    return found


def part_of(chain):
    """The part that an instruction of these functions counts for."""
    for part, functions in WHOLE:
        if any(re.search(functions, name) for name in chain):
            return part
    fits = (part for name in chain for part, functions in PARTS if re.search(functions, name))
    return next(fits, REST)


def code(folder, path):
    """The bytes of a program's machine code."""
    done(["objcopy", "-O", "binary", "-j", ".text", path, f"{folder}/code"])
    with open(f"{folder}/code", "rb") as file:
        return file.read()


def rows_of(counts, found):
    """For each part its instructions in each work."""
    rows = {part: [0] * len(WORKS) for part in [part for part, _ in WHOLE + PARTS] + [MEMORY, REST]}
    for k, (own, others) in enumerate(counts):
        for address, count in own.items():
            rows[part_of(found[address])][k] += count
        for name, count in others.items():
            rows[MEMORY if OF_MEMORY.search(name) else REST][k] += count
    return rows


def main():
    """Prints the rows."""
    if len(sys.argv) != 2:
        sys.exit(__doc__)
    # Callgrind tells a program by its path without links.
    folder = os.path.realpath(sys.argv[1])
    os.makedirs(folder, exist_ok=True)
    lines, names = placed(module_lines(folder))
    tool = program(folder, "placed", lines)
    if code(folder, tool) != code(folder, f"{CRATE}/out/rtr"):
        sys.exit("the machine code with places isn't that of the tool")
    counts = [counted(folder, tool, *work) for work in WORKS]
    found = chains(folder, tool, sorted(set().union(*(own for own, _ in counts))), names)
    rows = rows_of(counts, found)
    for part, row in rows.items():
        # A function that its part's pattern fits may have another name by now.
        if not any(row):
            sys.exit(f"no instruction counts for: {part}")
    rows["all"] = [sum(column) for column in zip(*rows.values())]
    for part, row in rows.items():
        print(f"| {part} | {' | '.join(f'{count / 1e6:.1f}' for count in row)} |")


if __name__ == "__main__":
    main()
