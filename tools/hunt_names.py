"""Names of a program's variables in claims, in place of the addresses of their words."""
import re

from draw_logs import Faulty

# A place or a word that has no variable in it; else a name, and the index of an element.
TOKEN = re.compile(r"\[\w*\]|\w+:\w+|\d\w*|(?P<name>[A-Za-z_]\w*)(?:\[(?P<index>\d+)\])?")
# What the places of `--see` and `--same` have for how each core ended.
STOPS = "stops"


class Names:
    """The names of the words of a memory, by address."""

    def __init__(self, names):
        self.names, self.places, self.twice = names, {}, set()
        for at, name in names.items():
            if name in self.places:
                self.twice.add(name)
            self.places[name] = at

    def address(self, name):
        """The address of a word that is named, as `counter` or `sum[1]`."""
        if not self.names:
            raise Faulty(f"nothing is known of {name}: names need objdump for RISC-V, and symbols in the file")
        if name in self.twice:
            raise Faulty(f"two variables are called {name}")
        if name in self.places:
            return self.places[name]
        if f"{name}[0]" in self.places:
            raise Faulty(f"{name} has more than one word: name one, as {name}[0]")
        raise Faulty(f"the program has no word that is called {name}")

    def to_addresses(self, text):
        """A claim, or places, with the address of a word in place of its name."""

        def told(found):
            if found["name"] in (None, STOPS):
                return found[0]
            return f"[{self.address(found[0]):x}]"

        return TOKEN.sub(told, text)

    def to_names(self, text):
        """The same with a word's name in place of its address, where it has one."""
        return re.sub(r"\[([0-9a-f]+)\]", lambda found: self.names.get(int(found[1], 16), found[0]), text)
