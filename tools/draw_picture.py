"""A picture of a recorded run: what is shown, where it stands, and the picture as an SVG or as the data of a page."""
import html
import textwrap
from itertools import chain

from draw_logs import Faulty
from draw_told import Told, relation

# Heights of a row and of what stands above the first; the way from lane to lane, of two cores and of others.
ROW, TOP, GAP, STEP, EDGE = 24, 96, 180, 64, 20
# How wide a letter of each kind of words is, and the longest grey words that aren't cut.
LETTER, SMALL, LONGEST = 8, 6.7, 52
# The legend needs so much.
WIDTH = 680
COLOURS = ["#0072b2", "#d55e00", "#009e73", "#cc79a7", "#e69f00", "#56b4e9", "#999933", "#882255"]

STYLE = """
  svg { font: 13px sans-serif; background: #ffffff; color: #1a1a1a; }
  text { fill: currentColor; } .lane { stroke: currentColor; opacity: .35; }
  .mark { fill: currentColor; stroke: #ffffff; stroke-width: 2; paint-order: stroke; }
  .ring { fill: #ffffff; stroke: currentColor; stroke-width: 1.6; }
  .edge { stroke: currentColor; stroke-width: 1.6; fill: none; } .head { fill: currentColor; }
  .vector { fill: none; stroke-width: 5; opacity: .35; }
  .near { fill: none; stroke: #ffffff; stroke-opacity: 0; stroke-width: 12; }
  g:hover > .edge { stroke-width: 3; } g:hover > .vector { opacity: .7; }
  .value { font: 13px monospace; white-space: pre; } .does { font-weight: bold; }
  .count, .rest { fill-opacity: .62; font-size: 11px; } .note { font-style: italic; }
  .lost { fill: #c2410c; font-weight: bold; font-size: 11px; } .mark.lost { fill: #c2410c; }
  .end { font: 11px monospace; white-space: pre; } .key { font-size: 11px; opacity: .75; }
"""
DARK = """  @media (prefers-color-scheme: dark) {
    svg { background: #16181c; color: #e8e8e8; } .mark { stroke: #16181c; } .ring { fill: #16181c; }
    .lost, .mark.lost { fill: #fb923c; }
  }
"""


def order(nodes, edges):
    """A row for each instruction, below those of all that come before it."""
    after, waits = {it: [] for it in nodes}, {it: 0 for it in nodes}
    own = sorted(nodes)
    steps = [(a, b) for a, b in zip(own, own[1:]) if a[0] == b[0]] + [((a, b), (c, d)) for a, b, c, d in edges]
    for source, target in steps:
        after[source].append(target)
        waits[target] += 1
    rows, ready = {}, [it for it in own if not waits[it]]
    for it in ready:
        rows.setdefault(it, 0)
    while ready:
        source = ready.pop()
        for target in after[source]:
            rows[target] = max(rows.get(target, 0), rows[source] + 1)
            waits[target] -= 1
            if not waits[target]:
                ready.append(target)
    if any(waits.values()):
        raise Faulty("the logs go round: no order obeys them")
    return rows


def ends_of(edges):
    """The instructions that edges lead from and to."""
    return {it for a, b, c, d in edges for it in ((a, b), (c, d))}


def rows_of(kept, edges):
    """A row for each kept instruction. They obey all edges, since what orders two of the kept may lead through others.
    Rows without any of the kept are left out."""
    rows = order(kept | ends_of(edges), edges)
    number = {row: number for number, row in enumerate(sorted({rows[it] for it in kept}))}
    return {it: number[rows[it]] for it in kept}


def cut_off(text, most):
    return text if len(text) <= most else text[: most - 2] + ".."


class Lane:
    """A core's lane: where its line stands, and its column of words, which no line of another lane crosses: where that
    begins (or ends, where the words stand on the left), and how wide it is."""

    def __init__(self, width, left=False):
        self.line, self.words, self.width, self.left = 0, 0, width, left

    def anchor(self):
        return ' text-anchor="end"' if self.left else ""


class Picture:
    """What is shown: instructions with their rows, edges and bands, and how the run ended. Where states are to stand
    beside it each instruction has a row of its own, and so the words of more than two cores one column."""

    def __init__(self, logs, told, said, state=None):
        most = float("inf") if said.most is None else said.most
        self.logs, self.told, self.said, self.least, self.most = logs, told, said, said.least, most
        self.state, self.names = state, {it.address: it.word() for it in told.values() if it.address is not None}
        self.edges = [it for it in logs.edges if self.keeps(it)]
        self.bands = [band for vector in logs.vectors if (band := [it for it in vector if self.keeps(it)])]
        kept = ends_of(chain(self.edges, *self.bands))
        kept |= {at for at, it in told.items() if self.least <= at[1] <= most and self.is_of_word(it)}
        self.rows = rows_of(kept, [*chain(logs.edges, *logs.vectors)])
        if said.states:
            self.rows = {it: row for row, it in enumerate(self.in_order())}
        self.size = max(self.rows.values(), default=-1) + 1
        self.is_shared = said.states and len(logs.totals) > 2
        longest = lambda core: max((len(self.count(it)) for it in self.rows if it[0] == core), default=1)
        self.digits = {core: longest(core) for core in logs.totals}
        self.wide = {core: self.words_wide(core) for core in logs.totals}
        self.lanes = self.laid_out()

    def count(self, at):
        """How an instruction is called beside its lane, or in a column of all."""
        return f"{at[0]}:{at[1]}" if self.is_shared else str(at[1])

    def in_order(self):
        """The instructions that are shown, in an order that obeys the logs."""
        return sorted(self.rows, key=lambda it: (self.rows[it], it))

    def is_of_word(self, told):
        return self.said.word is None or told.address == self.said.word

    def keeps(self, edge):
        known = [self.told.get(it) for it in ((edge[0], edge[1]), (edge[2], edge[3]))]
        of_word = self.said.word is None or all(it and it.address == self.said.word for it in known)
        return of_word and all(self.least <= count <= self.most for count in (edge[1], edge[3]))

    def sentence(self):
        most = "the last" if self.most == float("inf") else self.most
        window = "" if self.least == 0 and most == "the last" else f" Instructions {self.least} to {most}."
        word = "" if self.said.word is None else f" The word at {self.said.word:x} alone."
        left, rings = len(self.logs.edges) - len(self.edges), sum(self.is_ring(it) for it in self.rows)
        logged = f" Logged loads: {rings}." if self.logs.logged else ""
        losing = sum(bool(it.lost) for at, it in self.told.items() if at in self.rows)
        lost = f" Lost updates: {losing}." if losing else ""
        edges = f"{len(self.edges)} edge{'' if len(self.edges) == 1 else 's'} of the reduced log"
        return f"{edges}; {left} are left out.{lost}{logged}{window}{word}"

    def is_ring(self, at):
        return at in self.told and self.told[at].logged

    def parts(self, at):
        """The words beside an instruction, each with its look, from its lane outwards."""
        told = self.told.get(at, Told())
        # Beside the states stands the program.
        rest = "" if self.said.states else cut_off(f"{'logged ' if told.logged else ''}{told.rest()}", LONGEST)
        count = self.count(at).rjust(self.digits[at[0]])
        parts = [("count", count), ("does", told.does()), ("lost", told.loses()), ("rest", rest)]
        return [it for it in parts if it[1]]

    def ends(self, core):
        """How a core ended, and its registers that aren't 0, in lines that its column has room for."""
        if not self.state or core not in self.state.cores:
            return []
        stop, retired, pc = self.state.cores[core]
        registers = "  ".join(f"x{it}={value:x}" for it, value in self.state.registers.get(core, {}).items())
        name = f"core {core}: " if self.is_shared else ""
        return [f"{name}{stop} after {retired}, pc {pc:x}", *textwrap.wrap(registers, int(self.wide[core] / SMALL))]

    def final(self):
        """The words of the memory that the run changed, by name."""
        if not self.state:
            return []
        words = self.state.memory.items()
        told = ", ".join(f"{self.names.get(at, f'[{at:x}]')} = {value:x}" for at, value in words)
        return textwrap.wrap(f"At the end: {told or 'no word of the memory is changed'}.", 84)

    def words_wide(self, core):
        """How wide a core's column of words is."""
        wide = lambda parts: sum((SMALL if look != "does" else LETTER) * len(it) + 2 * LETTER for look, it in parts)
        of_core = [wide(self.parts(it)) for it in self.rows if it[0] == core]
        return int(max([240 if self.is_shared else LETTER * len(self.head(core)), *of_core]))

    def head(self, core):
        return f"core {core}, {self.logs.totals[core]} instructions"

    def laid_out(self):
        """The lanes by core. Of two cores the first has its words on its left, so that the arrows have the middle for
        themselves; of more all lines stand on the left, and the words in columns beside them."""
        cores = sorted(self.logs.totals)
        lanes = {core: Lane(self.wide[core], left=core == cores[0] and len(cores) == 2) for core in cores}
        if len(cores) == 2:
            one, other = (lanes[it] for it in cores)
            one.words = EDGE + one.width
            one.line, other.line = one.words + 12, one.words + 12 + GAP
            other.words = other.line + 12
            return lanes
        column = EDGE + STEP * max(len(cores) - 1, 0) + 28
        for number, core in enumerate(cores):
            lanes[core].line, lanes[core].words = EDGE + 8 + STEP * number, column
            column += 0 if self.is_shared else lanes[core].width + 24
        return lanes

    def width(self):
        ends = [it.words + EDGE + (0 if it.left else it.width) for it in self.lanes.values()]
        return max([0 if self.said.html else WIDTH, *ends])

    def place(self, at):
        return self.lanes[at[0]].line, TOP + self.rows[at] * ROW

    def arrow(self, edge, kind, look, said=""):
        """An arrow or a part of a band, which tells a pointer near it what it is."""
        (x, y), (u, v) = (self.place(it) for it in ((edge[0], edge[1]), (edge[2], edge[3])))
        side = 7 if u > x else -7
        told = html.escape(f"{edge[0]}:{edge[1]} before {edge[2]}:{edge[3]}{said}")
        way = f'd="M {x + side} {y} L {u - side} {v}"'
        paths = f'<path class="near" {way}/><path class="{kind}"{look} {way}/>'
        return f'<g class="{kind}s"><title>{told}</title>{paths}</g>'

    def orders(self, edge):
        """What an edge orders, behind a colon."""
        said = relation(self.told.get((edge[0], edge[1])), self.told.get((edge[2], edge[3])))
        return f": {said}" if said else ""

    def svg(self, dark=True):
        """The lines of the picture; without `dark` it is for a converter, and has one look alone."""
        below = TOP + ROW * self.size + 12
        feet, height = self.feet(below)
        width, note = self.width(), html.escape(self.sentence())
        out = [
            f'<svg xmlns="http://www.w3.org/2000/svg" viewBox="0 0 {width} {height}"'
            f' width="{width}" height="{height}" role="img">'
        ]
        out += [f"<title>{note}</title>", f"<style>{STYLE}{DARK if dark else ''}</style>"]
        out.append('<defs><marker id="head" markerWidth="9" markerHeight="9" refX="8" refY="4" orient="auto">')
        out.append('<path class="head" d="M 0 0 L 8 4 L 0 8 z"/></marker></defs>')
        out.append(f'<text class="note" x="16" y="26">{note}</text>')
        for core in self.lanes:
            out += self.lane(core, below)
        for number, band in enumerate(self.bands):
            paint = f' style="stroke: {COLOURS[number % len(COLOURS)]}"'
            out += [self.arrow(it, "vector", paint, f": vector {number + 1} of the regulated log") for it in band]
        out += [self.arrow(it, "edge", ' marker-end="url(#head)"', self.orders(it)) for it in self.edges]
        for at in sorted(self.rows):
            out += self.dot(at)
        return [*out, *feet, "</svg>"]

    def lane(self, core, below):
        lane, head = self.lanes[core], self.head(core)
        out = [f'<line class="lane" x1="{lane.line}" y1="{TOP - 24}" x2="{lane.line}" y2="{below - 12}"/>']
        out.append(f'<text x="{lane.words}" y="{TOP - 42}"{lane.anchor()}>{head}</text>')
        if len(self.lanes) > 2:
            out.append(f'<text x="{lane.line}" y="{TOP - 30}" text-anchor="middle">{core}</text>')
        return out

    def feet(self, y):
        """What stands under the lanes, and how high the picture is: ends, final values and the legend."""
        out, lowest = [], y
        for core, lane in self.lanes.items():
            for number, line in enumerate(self.ends(core), 1):
                lowest = max(lowest, y + 15 * number)
                words = f'<text class="end" x="{lane.words}" y="{y + 15 * number}"{lane.anchor()}>{line}</text>'
                out.append(words)
        for number, line in enumerate(self.final(), 1):
            lowest += 28 if number == 1 else 17
            out.append(f'<text class="final" x="16" y="{lowest}">{html.escape(line)}</text>')
        for number, line in enumerate(it for text in self.legend() for it in textwrap.wrap(text, 110)):
            lowest += 16 if number else 32
            out.append(f'<text class="key" x="16" y="{lowest}">{line}</text>')
        return out, lowest + 16

    def legend(self):
        """What the signs mean, as far as they are there."""
        out = [
            "Arrow: an edge of the reduced log. Band: the edges of one vector of the regulated log. Each points down.",
            "Square: a write. Dot: a read, or no access. Beside it: its count on its core, what it read (=) or wrote"
            " (:=), in hexadecimal, and in grey what it was.",
        ]
        if self.logs.logged:
            out.append("Ring: a logged load, which no edge orders: a replay gives it its value from the recording.")
        if any(it.lost for at, it in self.told.items() if at in self.rows):
            out.append(
                "Red: a lost update. Two cores read one value before the next write, and the write that loses C:N"
                " overwrites what the other core made of that value, unseen."
            )
        return out

    def dot(self, at):
        (x, y), lane, told = self.place(at), self.lanes[at[0]], self.told.get(at, Told())
        look = ("ring" if self.is_ring(at) else "mark") + (" lost" if told.lost or told.twin else "")
        title = f"<title>{at[0]}:{at[1]}</title>"
        if told.kind in ("store", "amo"):
            out = [f'<rect class="{look}" x="{x - 4}" y="{y - 4}" width="8" height="8">{title}</rect>']
        else:
            out = [f'<circle class="{look}" cx="{x}" cy="{y}" r="4">{title}</circle>']
        parts = self.parts(at)
        spans = "  ".join(
            f'<tspan class="{kind}">{html.escape(it)}</tspan>' for kind, it in (parts[::-1] if lane.left else parts)
        )
        full = html.escape(f"{at[0]}:{at[1]} {told.said()}")
        out.append(
            f'<text class="value" xml:space="preserve" x="{lane.words}" y="{y + 4}"{lane.anchor()}>'
            f"<title>{full}</title>{spans}</text>"
        )
        return out

    def page(self):
        """The data of a page."""
        nodes, heads = self.in_order(), [self.head(it) for it in self.lanes]
        under = [self.ends(it) for it in self.lanes]
        if self.is_shared:
            heads, under = [f"{len(heads)} cores", *[""] * (len(heads) - 1)], [list(chain(*under))]
        number = {it: k for k, it in enumerate(nodes)}
        ends = lambda edge: [number[edge[0], edge[1]], number[edge[2], edge[3]]]
        lanes = [self.lanes[it] for it in sorted(self.lanes)]
        return {
            "totals": [self.logs.totals[it] for it in sorted(self.logs.totals)],
            "nodes": [self.node(it) for it in nodes],
            "edges": [[*ends(it), self.orders(it)] for it in self.edges],
            "bands": [[ends(it) for it in band] for band in self.bands],
            "colours": COLOURS,
            "lanes": [{"line": it.line, "words": it.words, "left": it.left} for it in lanes],
            "digits": [self.digits[it] for it in sorted(self.lanes)],
            "heads": heads,
            "shared": self.is_shared,
            "width": self.width(),
            "names": {address: name for address, name in sorted(self.names.items())},
            "ends": under,
            "final": " ".join(self.final()),
            "note": self.sentence(),
        }

    def node(self, at):
        """An instruction, as draw_page.js takes it apart."""
        told = self.told.get(at, Told())
        return [
            *at, self.rows[at], told.does(), told.address, told.kind or "", told.logged, told.rest(), told.loses(),
            told.read_as(),
        ]
