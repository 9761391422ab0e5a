"""What a picture is drawn from: the logs of a recording, its bytes, and the state text of a run."""
import os
import re
import sys
from importlib.machinery import SourceFileLoader

sys.dont_write_bytecode = True
HERE = os.path.dirname(os.path.abspath(__file__))

# How a recording of cores with store buffers begins, and how each recording does.
BUFFERS, MAGIC = b"RTR\3", b"RTR"

LOGS = [
    ("head", re.compile(r"cores (\d+) limit (\d+) words (\d+) image (\d+)$")),
    ("total", re.compile(r"total (\d+) (\d+)$")),
    ("reduced", re.compile(r"reduced (\d+)$")),
    ("edge", re.compile(r"edge (\d+):(\d+) (\d+):(\d+)$")),
    ("regulated", re.compile(r"regulated (\d+) vectors (\d+) edges$")),
    ("vector", re.compile(r"vector (\d+) (\d+) (\d+) (\d+) (\d+)(?: (\d+) (\d+))?$")),
]
STATE = [
    ("cut", re.compile(r"cut ((?:\d+ ?)+)$")),
    ("core", re.compile(r"core (\d+) (\w+) retired (\d+) pc ([0-9a-f]{8})$")),
    ("register", re.compile(r"core (\d+) x(\d+) ([0-9a-f]{8})$")),
    ("mem", re.compile(r"mem ([0-9a-f]{8}) ([0-9a-f]{8})$")),
    ("load", re.compile(r"load (\d+) (\d+) ([0-9a-f]{8}) ([0-9a-f]{8})$")),
]


class Faulty(Exception):
    """What can't be read or drawn."""


def slow_model(name):
    """A slow model of the tool, from tests/."""
    return SourceFileLoader(name, os.path.join(HERE, "..", "tests", name)).load_module()


def found_in(forms, line):
    """The kind of a line among such forms, and what was found in it; None twice where it has none of them."""
    return next(((kind, it) for kind, form in forms if (it := form.match(line))), (None, None))


class BufferLogs:
    """What a recording of cores with store buffers says: the totals by core, the reduced edges, and each logged
    load with its value. It has no vectors."""

    def __init__(self, data):
        model = slow_model("tso_reference")
        try:
            read = model.Reader(data)
        except model.Fault as fault:
            raise Faulty(f"the recording can't be read: {fault}") from None
        self.limit, self.words, self.totals, self.vectors = read.limit, read.words, dict(enumerate(read.totals)), []
        into = [(core, at, sources) for core, counts in enumerate(read.sources) for at, sources in counts.items()]
        self.edges = sorted((source, first, core, at) for core, at, sources in into for source, first in sources)
        self.logged = {(core, at): value for core, values in enumerate(read.values) for at, value in values.items()}


class Logs:
    """Both logs of a recording: the totals by core, the reduced edges, and the vectors, each as a list of edges. An
    edge is its source's core and count and its target's."""

    def __init__(self, lines):
        self.limit, self.words, self.totals, self.edges, self.vectors, self.logged = 0, 0, {}, [], [], {}
        for number, line in enumerate(lines, 1):
            kind, found = found_in(LOGS, line)
            if kind is None or (number == 1) != (kind == "head"):
                raise Faulty(f"line {number} of the logs can't be read: {line}")
            self.take(kind, [int(it) for it in found.groups() if it is not None])
        if not lines:
            raise Faulty("line 1 of the logs can't be read: it is missing")

    def take(self, kind, numbers):
        if kind == "head":
            _, self.limit, self.words, _ = numbers
        elif kind == "total":
            self.totals[numbers[0]] = numbers[1]
        elif kind == "edge":
            self.edges.append(tuple(numbers))
        elif kind == "vector":
            source, target, size, first, second = numbers[:5]
            rise, fall = (numbers[5], numbers[6]) if len(numbers) == 7 else (0, 0)
            self.vectors.append([(source, first + k * rise, target, second + k * fall) for k in range(size)])


class State:
    """A state text: how each core stands (its stop, how many instructions it has retired, its pc), its registers that
    aren't 0, the words of the memory that changed, the address and value of each load, and the cut where it is told."""

    def __init__(self, lines=()):
        self.cut, self.cores, self.registers, self.memory, self.loads = None, {}, {}, {}, {}
        for number, line in enumerate(lines, 1):
            kind, found = found_in(STATE, line)
            if kind is None:
                raise Faulty(f"line {number} of the run can't be read: {line}")
            self.take(kind, found)

    def take(self, kind, found):
        if kind == "cut":
            self.cut = [int(it) for it in found[1].split()]
        elif kind == "core":
            self.cores[int(found[1])] = (found[2], int(found[3]), int(found[4], 16))
        elif kind == "register":
            self.registers.setdefault(int(found[1]), {})[int(found[2])] = int(found[3], 16)
        elif kind == "mem":
            self.memory[int(found[1], 16)] = int(found[2], 16)
        else:
            self.loads[int(found[1]), int(found[2])] = (int(found[3], 16), int(found[4], 16))


def spelled(number):
    """A number as recordings spell it: seven bits a byte, the lowest first."""
    out = bytearray()
    while number > 127:
        out.append(number & 127 | 128)
        number >>= 7
    return bytes([*out, number])


class Recording:
    """The first three parts of a recording: what the header says, the image and the totals."""

    def __init__(self, data):
        self.data, self.at = data, 4
        if data[:3] != MAGIC or len(data) < 4:
            raise Faulty("the recording can't be read: it doesn't begin as one")
        self.cores, self.limit, self.words, size = (self.number() for _ in range(4))
        self.image = data[self.at : self.at + size]
        self.at += size
        self.totals = [self.number() for _ in range(self.cores)]

    def number(self):
        value, shift = 0, 0
        while self.at < len(self.data):
            byte = self.data[self.at]
            self.at += 1
            value |= (byte & 127) << shift
            if byte < 128:
                return value
            shift += 7
        raise Faulty("the recording can't be read: it ends too early")

    def with_log(self, edges, totals):
        """The recording, in version 2, of the same image with such totals and such a reduced log, and no vectors."""
        head = b"".join(map(spelled, (self.cores, self.limit, self.words, len(self.image))))
        out = [MAGIC, b"\2", head, self.image, *map(spelled, totals)]
        for target in range(self.cores) if self.cores > 1 else ():
            out += self.edges_into(target, edges)
        return b"".join(out) + bytes(self.cores * (self.cores - 1))

    @staticmethod
    def edges_into(target, edges):
        """The edges into a core as version 2 spells them; those that others from the same core imply are left out."""
        last, before, out = {}, 0, []
        into = {(at, source): 0 for source, _, core, at in edges if core == target}
        for source, first, core, at in edges:
            if core == target:
                into[at, source] = max(into[at, source], first)
        for (at, source), first in sorted(into.items()):
            if first > last.get(source, 0):
                out += [at - before, source, first - last.get(source, 0)]
                before, last[source] = at, first
        return [spelled(len(out) // 3), *map(spelled, out)]
