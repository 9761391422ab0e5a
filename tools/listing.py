"""A program as a flat image, with the text of each instruction, its source line and names of words, by a stock objdump.
"""
import os
import re
import shutil
import struct
import subprocess
import tempfile

PREFIX = os.environ.get("RISCV", "riscv64-unknown-elf-")
CODE = re.compile(r"\s*([0-9a-f]+):\s+[0-9a-f]{8}\s+(.*)")
SOURCE = re.compile(r"(\S.*):(\d+)(?: \(.*\))?$")
SYMBOL = re.compile(r"([0-9a-f]{8}) .* O \S+\t([0-9a-f]{8}) (\S+)$")


def flat_image(file):
    """The segments of an ELF32 file at their addresses,
    and where it doesn't begin at address 0 a jump to its entry there."""
    if len(file) < 52 or file[:6] != b"\x7fELF\x01\x01":
        raise ValueError("not an ELF32 file")
    entry, table = struct.unpack_from("<II", file, 24)
    size, count = struct.unpack_from("<HH", file, 42)
    image = bytearray()
    for at in range(table, table + size * count, size):
        kind, offset, address, _, in_file, in_memory = struct.unpack_from("<6I", file, at)
        if kind == 1:
            image.extend(bytes(max(0, address + in_memory - len(image))))
            image[address : address + in_file] = file[offset : offset + in_file]
    if entry:
        bits = (entry >> 20 & 1) << 31 | (entry >> 1 & 1023) << 21 | (entry >> 11 & 1) << 20 | (entry >> 12 & 255) << 12
        image[0:4] = struct.pack("<I", bits | 0x6F)
    return bytes(image)


def listed(words):
    """The text of each instruction by its address, and its place in a source file, from what objdump prints."""
    texts, places, place = {}, {}, None
    for said in subprocess.run(words, capture_output=True, text=True, check=False).stdout.splitlines():
        code, source = CODE.match(said), SOURCE.match(said)
        if code:
            at = int(code[1], 16)
            texts[at] = " ".join(code[2].split("#")[0].split("<")[0].split())
            if place:
                places[at] = place
        elif source and not said.startswith(" "):
            place = (source[1], int(source[2]))
    return texts, places


def named(words):
    """The names of words of the memory, from the symbols that have a size, as objdump prints them."""
    names = {}
    for said in subprocess.run(words, capture_output=True, text=True, check=False).stdout.splitlines():
        found = SYMBOL.match(said)
        if found:
            at, size = int(found[1], 16), int(found[2], 16)
            for place in range(at & ~3, at + size, 4):
                names[place] = found[3] if size <= 4 else f"{found[3]}[{max(0, place - at) // 4}]"
    return names


class Program:
    """A program: its flat image; for each address the text of the instruction there and its place in a source file, and
    for each word of the memory its name. These are empty where no objdump for RISC-V is installed."""

    def __init__(self, file, is_elf):
        self.image, self.sources = flat_image(file) if is_elf else file, {}
        how = ["-d", "-l"] if is_elf else ["-D", "-b", "binary", "-m", "riscv:rv32"]
        dump = shutil.which(PREFIX + "objdump")
        self.texts, self.places, self.names = {}, {}, {}
        if dump:
            with tempfile.NamedTemporaryFile() as it:
                it.write(file)
                it.flush()
                self.texts, self.places = listed([dump, *how, "-M", "no-aliases,numeric", it.name])
                self.names = named([dump, "-t", it.name]) if is_elf else {}
        self.lines = {at: self.line(*place) for at, place in self.places.items()}

    def source(self, path):
        """The lines of a source file, or none where it isn't there to be read."""
        if path not in self.sources:
            try:
                with open(path, encoding="utf-8", errors="replace") as it:
                    self.sources[path] = it.read().splitlines()
            except OSError:
                self.sources[path] = []
        return self.sources[path]

    def line(self, path, number):
        """A source line, as `count.c:13 int seen = counter;`."""
        text = " ".join("".join(self.source(path)[number - 1 : number]).split())
        return f"{os.path.basename(path)}:{number} {text}".strip()
