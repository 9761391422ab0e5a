"""The commands of each program, with their options, as the section "Command line" of docs/FORMATS.md has them, and
what is made of that one table: manual pages, and completion for bash and zsh."""
import os
import re

TOP = os.path.dirname(os.path.dirname(os.path.abspath(__file__)))
FORMATS = os.path.join(TOP, "docs", "FORMATS.md")
# What each program is for: one line of its manual page, and its first paragraph.
PROGRAMS = {
    "rtr": (
        "record and replay races of a small RISC-V program",
        "rtr runs an RV32I image on 1 to 16 cores under a schedule of step choices, records the order in which their "
        "conflicting accesses met, and replays, explains and checks such recordings.",
    ),
    "rtr_gdb": (
        "walk through a recording of rtr with gdb, forwards and backwards",
        "rtr_gdb speaks gdb's remote protocol on standard input and output: gdb starts it by "
        "`target remote | rtr_gdb FILE`. With `at` it writes a core file in place of that.",
    ),
    "rtr_hunt": (
        "find the run that breaks a claim, and make its schedule small",
        "rtr_hunt tries many runs of an image, tells the first one that breaks a claim on how it ends, and prints the "
        "line by which rtr records exactly that run.",
    ),
}
ROW = re.compile(r"^\| (.*) \|$", re.MULTILINE)
BASE = re.compile(r"those of `(?:rtr )?(\w+)`(?: without (`--\w+`(?: and `--\w+`)*))?")
ONE_OF = re.compile(r"(?:exactly|at least) one of ([^;]*)")
FLAGS = re.compile(r"the flags? (`--\w+`(?:(?:,| and) `--\w+`)*)")
OPTION = re.compile(r"`--(\w+)`")


class Option:
    """An option of a command: its name, whether it takes a value, and what is said of the value."""

    def __init__(self, name, values=None):
        self.name, self.values = name, values

    @property
    def is_flag(self):
        return self.values is None

    @property
    def words(self):
        """The words that the value may be, where they are few and named."""
        told = (self.values or "").split("(")[0].split(", for ")[0]
        return re.findall(r"`(\w+)`", told) if " or " in told else []


class Command:
    """A command: its name, its options, what it reads and what it writes; the options that it requires, and groups of
    options of which it requires one."""

    def __init__(self, name, options, reads, writes):
        self.name, self.options, self.reads, self.writes = name, options, reads, writes
        self.required, self.groups = [], []


def plain(text):
    """A cell's text without its marks."""
    return text.replace("`", "").replace("\\|", "|")


def values_of(text):
    """What is said of an option's value, between its name and the next option or flag."""
    return re.sub(r"([,;]? both required.*|(,? |^)and|,)$", "", text.strip()).strip()


def own_options(cell):
    """The options that a cell names itself, and not by another command."""
    flags = [name for found in FLAGS.findall(cell) for name in OPTION.findall(found)]
    rest = FLAGS.sub(";", cell)
    parts = OPTION.split(rest)
    valued = [Option(name, values_of(text.split(";")[0])) for name, text in zip(parts[1::2], parts[2::2])]
    return valued + [Option(name) for name in flags]


def options_of(cell, before, known):
    """The options of a command, where a cell may say that they are those of another one."""
    base, left_out = [], []
    if cell.startswith("the same"):
        base = before
    found = BASE.search(cell)
    if found:
        base, left_out = known[found[1]].options, OPTION.findall(found[2] or "")
        cell = cell.replace(found[0], "")
    own, like = own_options(cell), re.search(r"as for `(\w+)`", cell)
    if like:
        named = {it.name: it for it in known[like[1]].options}
        own = [it if it.values and "as for" not in it.values else named.get(it.name, it) for it in own]
    return [it for it in base if it.name not in left_out] + own


def required_of(cell, known):
    """The options that a command requires, by its cell."""
    if "both required" in cell:
        return [it.name for it in own_options(cell)[:2]]
    others = [name for mark, name in (("`gen`", "gen"), ("`rtr at`", "at")) if mark in cell]
    return known[others[0]].required if others else []


def groups_of(cell, known):
    """The groups of options of which a command requires one."""
    found = BASE.search(cell)
    return [OPTION.findall(it) for it in ONE_OF.findall(cell)] + (known[found[1]].groups if found else [])


def sections():
    """The tables of the section "Command line", by the program that each is about."""
    with open(FORMATS, encoding="utf-8") as it:
        text = it.read().split("\n## Command line\n")[1]
    text = text.split("\n## ")[0]
    begins = [(found.start(), found[1]) for found in re.finditer(r"^`(\w+)` is a program", text, re.MULTILINE)]
    cuts = [(0, "rtr"), *begins, (len(text), "")]
    return {name: text[at:end] for (at, name), (end, _) in zip(cuts, cuts[1:])}


def commands(known=None):
    """The commands of each program, in the order of the table."""
    made, of_rtr = {}, {}
    for program, text in sections().items():
        rows, before, known = [], [], of_rtr if program == "rtr" else dict(of_rtr)
        for row in ROW.findall(text)[1:]:
            name, cell, reads, writes = row.split(" | ")
            found = re.fullmatch(r"`(\w+)`", name)
            command = Command(found[1] if found else None, options_of(cell, before, known), reads, writes)
            command.required, command.groups = required_of(cell, known), groups_of(cell, known)
            rows.append(command)
            before = command.options
            if found:
                known[found[1]] = command
        made[program] = rows
    return made


def statuses():
    """The statuses with their lines, as FORMATS has them."""
    with open(FORMATS, encoding="utf-8") as it:
        table = it.read().split("**Report.**")[1].split("| status | line |")[1]
    table = re.split(r"\n\n", table)[0]
    return [tuple(it.strip() for it in row.split(" |", 1)) for row in ROW.findall(table)[1:]]


def quoted(text):
    """A text as roff has it."""
    return re.sub(r"^([.'])", r"\\&\1", plain(text).replace("\\", "\\e").replace("-", "\\-"))


def usage(program, command):
    """The command's line of use."""
    words, grouped = [program, command.name or "FILE"], {name: [] for group in command.groups for name in group}
    for it in command.options:
        word = f"--{it.name}" if it.is_flag else f"--{it.name} {'|'.join(it.words) or it.name.upper()}"
        if it.name in grouped:
            grouped[it.name] = word
        else:
            words.append(word if it.name in command.required else f"[{word}]")
    return " ".join(words + [f"({'|'.join(grouped[name] for name in group)})" for group in command.groups])


def manual(program, rows):
    """The manual page of a program, in roff."""
    short, about = PROGRAMS[program]
    page = [f'.TH {program.upper()} 1 "" "rtr" "User Commands"', ".SH NAME", f"{program} \\- {quoted(short)}", ".SH SYNOPSIS"]
    for row in rows:
        page += [f".B {quoted(usage(program, row))}", ".br"]
    page += [".SH DESCRIPTION", quoted(about), ".PP"]
    page += ["The input is standard input, the output standard output. Options follow the command in any order, each at most once,"]
    page += ["as \\-\\-name value or \\-\\-name=value; numbers are decimal, without a leading zero.", ".SH COMMANDS"]
    for row in rows:
        page += [".SS " + (row.name or "FILE"), f"Reads: {quoted(row.reads)}.", ".br", f"Writes: {quoted(row.writes)}."]
        for it in row.options:
            page += [".TP", f".B \\-\\-{it.name}", quoted(it.values) if not it.is_flag else "a flag"]
    page += [".SH EXIT STATUS", "With each status but 0 one line stands on standard error."]
    for status, line in statuses():
        page += [".TP", f".B {status}", quoted(line) or "it is done"]
    others = ", ".join(f"{it}(1)" for it in PROGRAMS if it != program)
    page += [".SH SEE ALSO", f"{others}, gdb(1)", ""]
    return "\n".join(page)


def case(lines):
    """A `case` of a shell over `"$1 $2 $3"`, a line for each pattern with the words that it prints."""
    rows = [f"        {pattern}) echo {' '.join(words)} ;;" for pattern, words in lines if words]
    return ['    case "$1 $2 $3" in', *rows, "    esac"]


def bash(made):
    """Completion for bash: the commands, the options of the command, and the words of an option."""
    rows = [(program, row) for program, table in made.items() for row in table]
    first = [(f"'{program}  '", [row.name for row in table if row.name]) for program, table in made.items()]
    words, options = [], []
    for program, row in rows:
        at = f"'{program} '*' " if row.name is None else f"'{program} {row.name} "
        words += [(f"{at}--{it.name}'", it.words) for it in row.options]
        options.append((f"{at}'*", [f"--{it.name}" for it in row.options]))
    return "\n".join(
        [
            "# Completion of rtr's programs for bash, made by tools/install of docs/FORMATS.md.",
            "_rtr_words() {",
            *case(first + words + options),
            "}",
            "_rtr() {",
            "    local program=${COMP_WORDS[0]##*/} before=''",
            '    [ "$COMP_CWORD" -gt 2 ] && before=${COMP_WORDS[COMP_CWORD - 1]}',
            '    [ "$COMP_CWORD" -gt 1 ] && set -- "${COMP_WORDS[1]}" "$before" || set -- "" ""',
            '    mapfile -t COMPREPLY < <(compgen -W "$(_rtr_words "$program" "$@")" -- "${COMP_WORDS[COMP_CWORD]}")',
            "}",
            f"complete -o default -F _rtr {' '.join(made)}",
            "",
        ]
    )


def zsh(made):
    """Completion for zsh, which takes over that of bash."""
    return "\n".join(
        [
            f"#compdef {' '.join(made)}",
            "# Completion of rtr's programs for zsh, made by tools/install of docs/FORMATS.md.",
            "autoload -U +X bashcompinit && bashcompinit",
            'source "${${(%):-%x}:A:h}/_rtr.bash"',
            "",
        ]
    )
