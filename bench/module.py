"""What bench/parts.py and bench/waits.py share: the LLVM module of the proved tool, and programs made of it.

It is imported, not run. The tool's crates have to be proved (`cd crates/rtr && rt run -- record < stdin`). No proof is
done again: a copy of the kit's commands builds the tool once more, by a clang that keeps what it is handed.
"""
import filecmp
import os
import re
import shutil
import subprocess
import sys

TOP = os.path.dirname(os.path.dirname(os.path.abspath(__file__)))
CRATE = f"{TOP}/crates/rtr"
RT = shutil.which("rt") or sys.exit("rt, the kit's command, isn't on the path")
KIT = os.path.dirname(os.path.dirname(os.path.realpath(RT)))
KEEPER = """#!/bin/sh
for word in "$@"; do
  case $word in *.bc) cp "$word" '{folder}/module.bc' && printf '%s\\n' "$@" > '{folder}/words' ;; esac
done
exec '{kit}/toolchain/bin/clang' "$@"
"""
# The first line of a function, with its name.
DEFINED = re.compile(r'define .*?@(?:"([^"]+)"|([\w.$:]+))\(.*\{$')
# What a name says of types that the function is made for.
MADE_FOR = re.compile(r"::<.*")


def done(words, **how):
    """What a command prints, which has to end well."""
    ran = subprocess.run(words, stdout=subprocess.PIPE, stderr=subprocess.STDOUT, check=False, **how)
    told = ran.stdout.decode(errors="replace")
    if ran.returncode:
        sys.exit(f"{' '.join(words)[:200]}:\n{told}")
    return told


def linked(origin, place, but):
    """A folder of links to all that another one has, but for some."""
    os.makedirs(place, exist_ok=True)
    for name in set(os.listdir(origin)) - set(but):
        os.symlink(f"{origin}/{name}", f"{place}/{name}")


def keep_module(folder):
    """Builds the tool by a kit whose clang keeps its module and its words in the folder."""
    stamp = f"{CRATE}/out/rtr.stamp"
    if not os.path.exists(stamp):
        sys.exit("build the tool first: (cd crates/rtr && rt run -- record) < crates/rtr/stdin")
    kit = f"{folder}/kit"
    shutil.rmtree(kit, ignore_errors=True)
    # The commands find their kit by where they lie themselves: so they are copied, and all else is linked.
    linked(KIT, kit, ["bin", "toolchain"])
    shutil.copytree(f"{KIT}/bin", f"{kit}/bin")
    linked(f"{KIT}/toolchain", f"{kit}/toolchain", ["bin"])
    linked(f"{KIT}/toolchain/bin", f"{kit}/toolchain/bin", ["clang"])
    with open(f"{kit}/toolchain/bin/clang", "w", encoding="utf-8") as file:
        file.write(KEEPER.format(folder=folder, kit=KIT))
    os.chmod(file.name, 0o755)
    # Without this stamp the program is built again, where it lies.
    os.remove(stamp)
    with open(f"{CRATE}/stdin", "rb") as given:
        done([f"{kit}/bin/rt", "run", "--", "record"], cwd=CRATE, stdin=given)


def compiled(folder, given, made, kind=("-c",)):
    """Compiles a module by the words that the tool's was compiled by, to this kind."""
    with open(f"{folder}/words", encoding="utf-8") as file:
        words = file.read().split("\n")[:-1]
    # They are `.. -c -x ir MODULE -o OBJECT ..`: kind, module and object are taken out, and the new ones put in.
    at = words.index("-o")
    words = [it for it in [*words[: at - 1], *words[at + 2 :]] if it != "-c"]
    at = words.index("ir") + 1
    done([f"{KIT}/toolchain/bin/clang", *kind, *words[:at], given, "-o", made, *words[at:]], cwd=folder)


def module_lines(folder):
    """The lines of the module of the tool as it is built now."""
    text, tool = f"{folder}/module.ll", f"{folder}/rtr"
    if not (os.path.exists(tool) and filecmp.cmp(tool, f"{CRATE}/out/rtr", shallow=False)):
        keep_module(folder)
        compiled(folder, f"{folder}/module.bc", text, ("-S", "-emit-llvm", "-Xclang", "-disable-llvm-passes"))
        shutil.copy(f"{CRATE}/out/rtr", tool)
    with open(text, encoding="utf-8") as file:
        return file.read().split("\n")


def program(folder, name, lines):
    """The program of a module, by its path."""
    made = f"{folder}/{name}"
    with open(f"{made}.ll", "w", encoding="utf-8") as file:
        file.write("\n".join(lines))
    compiled(folder, f"{made}.ll", f"{made}.o")
    link = [f"{KIT}/bin/rattle-link", "--target", "x86_64-unknown-linux-gnu", "--toolchain", f"{KIT}/toolchain"]
    done([*link, "-o", made, f"{made}.o", f"{KIT}/c/libos_c.a", f"{KIT}/c/liblibc_c.a"])
    return made


def defined(line):
    """The name of the function that begins at a line, without what it is made for."""
    found = DEFINED.match(line)
    return MADE_FOR.sub("", found[1] or found[2]) if found else None
