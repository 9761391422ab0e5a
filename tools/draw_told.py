"""What is told of each instruction of a run: its access, its value, its text and source line, and lost updates."""
from draw_logs import Faulty, slow_model

LOAD, OTHER, IMMEDIATE, STORE, ATOMIC = 0x03, 0x33, 0x13, 0x23, 0x2F
READS, WRITES = ("load", "amo"), ("store", "amo")
# How many loads a value is taken to be made of, the latest ones.
MADE = 64


class Told:
    """What is told of an instruction: its kind of access (load, store, amo, or None for a local one), the byte address
    of its word and its name, the value that it read and the one that it left, its text, its source line, whether it is
    a logged load, the writes that it overwrites without having read them, and for a read before such a loss the other
    core's read of the same value."""

    def __init__(self, kind=None, address=None, value=None, left=None, name="", text="", line=""):
        self.kind, self.address, self.value, self.left = kind, address, value, left
        self.name, self.text, self.line, self.logged = name, text, line, False
        self.made, self.lost, self.twin = {}, [], None

    def word(self):
        """The word by its name, or by its byte address in brackets."""
        return "" if self.address is None else self.name or f"[{self.address:x}]"

    def does(self):
        """What it does to its word, as `counter = 1` where it reads and `counter := 2` where it writes."""
        if self.address is None:
            return "" if self.value is None else f"= {self.value:x}"
        if self.kind == "store":
            return self.word() if self.left is None else f"{self.word()} := {self.left:x}"
        if self.kind == "amo" and self.left is not None:
            return f"{self.word()} = {self.value:x} := {self.left:x}"
        return self.word() if self.value is None else f"{self.word()} = {self.value:x}"

    def rest(self):
        return " | ".join(it for it in (self.line, self.text) if it)

    def loses(self):
        """The mark of a lost update: whose writes this one overwrites."""
        first, last = (f"{core}:{count}" for core, count in (self.lost[0], self.lost[-1])) if self.lost else ("", "")
        return "" if not self.lost else f"loses {first}" + ("" if first == last else f" to {last}")

    def read_as(self):
        """The mark of a read that a lost update begins with."""
        return f"read by {self.twin[0]}:{self.twin[1]} too before either wrote" if self.twin else ""

    def said(self):
        parts = (self.does(), self.loses(), self.read_as(), "logged" if self.logged else "", self.rest())
        return "   ".join(it for it in parts if it)


def told_of_loads(loads):
    return {at: Told("load", address, value) for at, (address, value) in loads.items()}


def mark_logged(logs, told):
    """Tells of each logged load that it is one."""
    for at, value in logs.logged.items():
        if told.setdefault(at, Told("load", value=value)).value != value:
            raise Faulty(f"the run isn't the one that was recorded: its load {at[1]} of core {at[0]} got another value")
        told[at].logged = True


class Origins:
    """Which loads of one core each of its values is made of: for each register, and for each word as the core left it,
    the latest load of each word, by its count. What decides a branch isn't followed."""

    def __init__(self):
        self.registers, self.words = [{} for _ in range(32)], {}

    @staticmethod
    def joined(one, other):
        made = {word: max(one.get(word, 0), other.get(word, 0)) for word in {**one, **other}}
        return made if len(made) <= MADE else dict(sorted(made.items(), key=lambda it: it[1])[-MADE:])

    def step(self, code, word, count):
        """Goes on by an instruction, and answers what the value that it stores is made of."""
        kind, stored = code & 127, {}
        target, first, second = code >> 7 & 31, self.registers[code >> 15 & 31], self.registers[code >> 20 & 31]
        made = {OTHER: self.joined(first, second), IMMEDIATE: first}.get(kind, {})
        if kind in (LOAD, ATOMIC):
            made = self.joined(self.words.get(word, {}), {word: count})
        if kind in (STORE, ATOMIC):
            stored = self.joined(made, second)
            # A narrow store leaves the other bytes of the word.
            self.words[word] = stored if whole(code) else self.joined(stored, self.words.get(word, {}))
        # A store and a branch have no target: these bits are part of their numbers.
        if target and kind not in (STORE, 0x63):
            self.registers[target] = made
        return stored


def whole(code):
    """Whether an instruction writes its whole word, so that what it leaves is known from its core alone."""
    return code & 127 == ATOMIC or code & 0x707F == 0x2023


def told_of_program(logs, loads, program):
    """What each access of the run was, by running each core alone with the values that its loads got."""
    model, told = slow_model("reference"), {}
    for number, total in logs.totals.items():
        core, origins = model.Core(number, program.image, logs.limit, logs.words), Origins()
        for count in range(1, total + 1):
            pc = core.pc
            try:
                kind, word, retire = core.need()
            except model.Stop:
                raise Faulty(f"the program isn't the one that ran: core {number} has no instruction {count}") from None
            if kind in READS and (number, count) not in loads:
                raise Faulty(f"the program isn't the one that ran: the run has no load {count} of core {number}")
            value = loads[number, count][1] if kind in READS else None
            code, left = int.from_bytes(program.image[pc : pc + 4], "little"), retire(value or 0)
            made = origins.step(code, None if word is None else 4 * word, count)
            if kind:
                left = left if kind in WRITES and whole(code) else None
                known = program.names.get(4 * word, ""), program.texts.get(pc, ""), program.lines.get(pc, "")
                told[number, count] = Told(kind, 4 * word, value, left, *known)
                told[number, count].made = made
    return told


class Word:
    """A word while its accesses are gone over: its writes, each with the read that it is made of and how many writes
    that saw; and of each core its latest load, with how many writes that saw."""

    def __init__(self):
        self.writes, self.seen = [], {}

    def read(self, at, logged):
        # Where a logged load stands among the writes isn't known.
        self.seen[at[0]] = None if logged else (at[1], len(self.writes))

    def write(self, at, told):
        """Answers the writes of other cores that this one overwrites, where it is made of an older value and the first
        of them is made of that value too, and then both reads of that value."""
        count, saw = self.seen.get(at[0]) or (None, None)
        based = count is not None and told.made.get(told.address) == count
        missed = self.writes[saw:] if based and told.left is not None else []
        self.writes.append((at, count if based else None, saw if based else None))
        if not missed or missed[0][2] != saw or missed[0][0][0] == at[0]:
            return [], []
        first, read, _ = missed[0]
        return [it for it, _, _ in missed if it[0] != at[0]], [(at[0], count), (first[0], read)]


def mark_lost(told, rows):
    """Marks lost updates: two reads of one value come before the next write, which is made of it, and the other core's
    write, made of it as well, comes later. Both reads are marked, and the later write. Rows that obey the logs have the
    accesses to each word in their order, but for reads between the same writes."""
    words = {}
    for at in sorted((it for it in told if it in rows), key=lambda it: (rows[it], it)):
        it = told[at]
        if it.address is None:
            continue
        word = words.setdefault(it.address, Word())
        if it.kind in READS:
            word.read(at, it.logged)
        if it.kind in WRITES:
            it.lost, reads = word.write(at, it)
            for one, other in zip(reads, reads[::-1]):
                told[one].twin = other


def relation(source, target):
    """What an edge orders, as `read before write of counter`; nothing where that isn't known."""
    kinds = {"load": "read", "store": "write", "amo": "atomic update"}
    both = [kinds.get(it.kind) if it else None for it in (source, target)]
    # With the loads alone known, the other end of a conflict is a write.
    words = {it.word() for it in (source, target) if it and it.address is not None}
    if len(words) != 1 or both == ["read", "read"]:
        return ""
    return f"{both[0] or 'write'} before {both[1] or 'write'} of {words.pop()}"
