"""Claims on how a run ends, and what they say of a state text: a slow model, written from docs/FORMATS.md alone."""
import re

STOPS = ["exit", "break", "limit", "fetch", "illegal", "jump", "align", "address"]
CORES, WORDS = 16, 2**32
LINE = re.compile(r"core (\d+) (\w+) retired|core (\d+) x(\d+) (\w+)|mem (\w+) (\w+)")
COMPARES = {
    "=": lambda one, other: one == other,
    "!=": lambda one, other: one != other,
    "<": lambda one, other: signed(one) < signed(other),
    "<=": lambda one, other: signed(one) <= signed(other),
    ">": lambda one, other: signed(one) > signed(other),
    ">=": lambda one, other: signed(one) >= signed(other),
}


def signed(word):
    return (word + 2**31) % WORDS - 2**31


def decimal(text, most):
    """The number that a text has, up to `most`; or None."""
    if re.fullmatch(r"0|[1-9]\d*", text, re.ASCII) and int(text) <= most:
        return int(text)
    return None


def refused(text):
    return ValueError(f"it means nothing: {text}")


class End:
    """How a run ended, by its state text and the opening values of the words that it doesn't name."""

    def __init__(self, text, opening=lambda address: 0):
        self.stops, self.registers, self.words, self.opening = [], {}, {}, opening
        for _, stop, core, register, value, address, word in LINE.findall(text):
            if stop:
                self.stops.append(stop)
            elif register:
                self.registers[int(core), int(register)] = int(value, 16)
            elif word:
                self.words[int(address, 16)] = int(word, 16)

    def value(self, place):
        kind, *which = place
        if kind == "word":
            return self.words.get(which[0], self.opening(which[0]))
        if kind == "register":
            return self.registers.get(tuple(which), 0)
        return STOPS.index(self.stops[which[0]])

    def values(self, places):
        return [self.value(it) for it in places]


def value_place(text):
    """A word of the memory or a register, or None."""
    word = re.fullmatch(r"\[([0-9a-fA-F]{1,8})\]", text)
    if word:
        return ("word", int(word[1], 16)) if int(word[1], 16) % 4 == 0 else None
    core, _, register = text.partition(":")
    core, number = decimal(core, CORES - 1), decimal(register[1:], 31) if register[:1] == "x" else None
    return None if core is None or number is None else ("register", core, number)


def each_once(places):
    return list(dict.fromkeys(places))


def read_places(text, cores):
    """What `--see` and `--same` name."""
    places = []
    for part in text.split(","):
        core, _, rest = part.partition(":")
        if part == "stops":
            places += [("stop", it) for it in range(cores)]
        elif rest == "stop" and decimal(core, CORES - 1) is not None:
            places.append(("stop", int(core)))
        elif value_place(part):
            places.append(value_place(part))
        else:
            raise refused(part)
    return each_once(places)


def read_number(text):
    """A number on the right side of a comparison, as a word; or None."""
    if re.fullmatch(r"0x[0-9a-fA-F]{1,8}", text):
        return int(text, 16)
    if text[:1] == "-":
        number = decimal(text[1:], 2**31)
        return WORDS - number if number else None
    return decimal(text, WORDS - 1)


def read_atom(text):
    """A comparison, as place, sign and right side; or how a core ended, as its number (none for all) and its stop."""
    found = re.match(r"([^=<>!]*)(!=|<=|>=|=|<|>)(.*)", text, re.DOTALL)
    if found:
        left, right = value_place(found[1]), read_number(found[3])
        right = value_place(found[3]) if right is None else right
        if left is None or right is None:
            raise refused(text)
        return left, found[2], right
    core, _, stop = text.partition(":")
    if stop not in STOPS or core != "all" and decimal(core, CORES - 1) is None:
        raise refused(text)
    return (None if core == "all" else int(core)), stop


def read_claim(text):
    """Alternatives of atoms."""
    return [[read_atom(it) for it in alternative.split(",")] for alternative in text.split("|")]


def places_of(claim, cores):
    """The places that a claim names, in the order in which they are first named."""
    places = []
    for atom in (atom for alternative in claim for atom in alternative):
        if len(atom) == 3:
            places += [it for it in (atom[0], atom[2]) if isinstance(it, tuple)]
        else:
            places += [("stop", it) for it in (range(cores) if atom[0] is None else [atom[0]])]
    return each_once(places)


def atom_holds(atom, end):
    if len(atom) == 3:
        left, sign, right = atom
        return COMPARES[sign](end.value(left), end.value(right) if isinstance(right, tuple) else right)
    core, stop = atom
    return all(it == stop for it in (end.stops if core is None else [end.stops[core]]))


def holds(claim, end):
    return any(all(atom_holds(it, end) for it in alternative) for alternative in claim)


def answer(place, value):
    """A place with its value, as it is printed."""
    kind, *which = place
    if kind == "word":
        return f"[{which[0]:x}]={signed(value)}"
    if kind == "register":
        return f"{which[0]}:x{which[1]}={signed(value)}"
    return f"{which[0]}:{STOPS[value]}"
