"""What `rtr at` says at each row of a picture."""
import os
import subprocess

from draw_logs import BUFFERS, Faulty, State

# How many rows get a state.
MOST = 600


def asked(tool, words, data):
    """What the tool answers to a recording."""
    try:
        done = subprocess.run([tool, *words], input=data, capture_output=True, check=False)
    except OSError:
        raise Faulty(f"no program {tool} can be started: put rtr on the path, or name it by --tool") from None
    if done.returncode:
        raise Faulty(f"rtr {words[0]} refuses the recording: {done.stderr.decode(errors='replace').strip()}")
    return done.stdout


class States:
    """The states of a page: before the first row, behind each row, and at the end.

    Of one instruction `rtr at` says the state of the least cut that has it, and there other cores may not have come so
    far as in the row before. So the rows' order is written into the log, as edges from row to row. The run obeys this
    log too. By it the least cut that has a row's instruction has all rows above, and what comes before them by the log
    itself, and nothing else. The state before the first row is that of the recording of nothing, and the one at the end
    is what `rtr replay` says."""

    def __init__(self, picture, recording, program, tool):
        self.picture, self.recording, self.program, self.tool = picture, recording, program, tool
        self.rows, self.logs, self.cores, self.numbers = picture.in_order(), picture.logs, [], {}
        if recording.data.startswith(BUFFERS):
            raise Faulty("--states is for recordings by rtr record: rtr at doesn't read those of store buffers")
        if len(self.rows) > MOST:
            said = f"{len(self.rows)} rows are too many for --states, which takes {MOST}"
            raise Faulty(f"{said}: show fewer by --word, --from and --to")

    def states(self):
        """The state at each position, in their order."""
        chain = [(*one, *other) for one, other in zip(self.rows, self.rows[1:]) if one[0] != other[0]]
        ordered = self.recording.with_log([*self.logs.edges, *chain], self.recording.totals)
        nothing = self.recording.with_log([], [0] * self.recording.cores)
        texts = [asked(self.tool, ["replay"], nothing)]
        for core, count in self.rows:
            texts.append(asked(self.tool, ["at", "--core", str(core), "--count", str(count)], ordered))
        texts.append(asked(self.tool, ["replay"], self.recording.data))
        return [State(it.decode().splitlines()) for it in texts]

    def number(self, state, core):
        """A core's state by its number: each is kept once."""
        stop, retired, pc = state.cores[core]
        registers = state.registers.get(core, {})
        known = (stop, retired, pc, *registers.items())
        if known not in self.numbers:
            self.numbers[known] = len(self.cores)
            self.cores.append([stop, retired, pc, registers])
        return self.numbers[known]

    def waits(self, state):
        """For each core its next instruction that is shown, and what the way there waits for: the sources of edges that
        aren't done."""
        done = {core: it[1] for core, it in state.cores.items()}
        next_of = lambda core: min((it for of, it in self.rows if of == core and it > done[core]), default=None)
        near = {core: next_of(core) for core in sorted(done)}
        waits = [[f"{core}:{it}" if it else "", []] for core, it in near.items()]
        for source, first, target, at in self.logs.edges:
            if first > done[source] and done[target] < at <= (near[target] or self.logs.totals[target]):
                waits[target][1].append(f"{source}:{first}")
        return waits

    def opening(self, addresses):
        """The values of words before the run, as the image has them."""
        image = self.recording.image
        return {it: int.from_bytes(image[it : it + 4].ljust(4, b"\0"), "little") for it in sorted(addresses)}

    def source(self):
        """The source: its files, or one of instructions where there is none, and for each pc its file and line."""
        program, near = self.program, {pc for _, _, pc, _ in self.cores}
        places = {pc: place for pc, place in program.places.items() if program.source(place[0])}
        if not near & set(places):
            return self.instructions(near)
        # Files stand in the order of their instructions.
        paths = list(dict.fromkeys(places[pc][0] for pc in sorted(places)))
        files = [[os.path.basename(it), program.source(it)] for it in paths]
        return files, {pc: [paths.index(places[pc][0]), places[pc][1] - 1] for pc in near & set(places)}

    def instructions(self, near):
        """The instructions from the first to the last where a core stands, in place of a source."""
        image = self.program.image
        shown = [it for it in range(min(near) & ~3, max(near) + 1, 4) if it + 4 <= len(image)]
        text = lambda it: self.program.texts.get(it) or image[it : it + 4][::-1].hex()
        lines = [f"{it:6x}  {text(it)}" for it in shown]
        return [["instructions", lines, True]], {it: [0, shown.index(it)] for it in near if it in shown}

    def data(self):
        """What the page has of it."""
        states = self.states()
        cores = [[self.number(it, core) for core in sorted(it.cores)] for it in states]
        rows = [{"cores": of, "memory": it.memory, "waits": self.waits(it)} for of, it in zip(cores, states)]
        files, places = self.source()
        changed = {address for it in states for address in it.memory}
        names = {it: self.program.names.get(it) or f"[{it:x}]" for it in changed}
        opening = self.opening(changed)
        return {
            "rows": rows, "cores": self.cores, "opening": opening, "names": names, "files": files, "places": places,
        }
