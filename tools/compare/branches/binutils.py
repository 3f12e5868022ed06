"""What objdump and readelf tell of an object's branches, and all that says where they lead."""

import collections
import re
import subprocess
from typing import NamedTuple, Optional

SECTION = re.compile(r"^ *\[ *(\d+)\] (.*?) +([A-Z_0-9]+) +[0-9a-f]{16} ([0-9a-f]+) ([0-9a-f]+) [0-9a-f]+ +([A-Zxolpd]*) +\d+ +(\d+)")
RELOCS = re.compile(r"^Relocation section '.*' at offset 0x([0-9a-f]+) contains")
RELOC = re.compile(r"^([0-9a-f]{16}) +([0-9a-f]{8})[0-9a-f]{8} (\S+)(?: +[0-9a-f]{16} +(?:.* )?([+-]) ([0-9a-f]+)$)?")
SYMBOL = re.compile(r"^ *(\d+): ([0-9a-f]{16}) +(\S+) (\S+) +(\S+) +\S+ +(?:\[.*\] +)?(\S+) ?(.*)$")
DISASSEMBLY = re.compile(r"^Disassembly of section (.*):$")
INSN = re.compile(r"^ *([0-9a-f]+):\t([0-9a-f ]+?) *(?:\t(.*))?$")
PREFIX = re.compile(r"^(?:[c-gs]s|data16|addr32|bnd|notrack|lock|repn?z?|rex(?:\.\w+)?) +")
DIRECT = re.compile(r"^(call|j[a-z]+|loop[a-z]*)(?:,p[nt])? +([0-9a-f]+)\b")


class Place(NamedTuple):
    sec: int
    off: int

    def behind(self, bytes: int) -> "Place":
        return Place(self.sec, self.off + bytes)


class Section(NamedTuple):
    name: str
    start: int
    size: int
    is_text: bool


class Symbol(NamedTuple):
    name: str
    kind: str
    bind: str
    home: str
    value: int
    size: int

    @property
    def place(self) -> Optional[Place]:
        return Place(int(self.home), self.value) if self.home.isdigit() else None


class Reloc(NamedTuple):
    kind: str
    sym: int
    addend: int


class Branch(NamedTuple):
    """A direct call or branch: its name, its length, how many bytes the displacement has, and where that leads."""

    name: str
    len: int
    bytes: int
    to: Place

    @property
    def is_call(self) -> bool:
        return self.name == "call"


class Alternative(NamedTuple):
    original: Place
    replacement: Place
    original_len: int
    replacement_len: int


def lines_of(*command: str) -> list[str]:
    return subprocess.run(command, capture_output=True, text=True, check=True, errors="replace").stdout.splitlines()


def displacement_bytes(code: bytes) -> int:
    """CALL, JMP with 32 bits and 0F 8x have four, all others one."""
    opcode = next(byte for byte in code if byte not in b"\x26\x2e\x36\x3e\x64\x65\x66\x67\xf0\xf2\xf3" and byte & 0xF0 != 0x40)
    return 4 if opcode in (0xE8, 0xE9, 0x0F) else 1


class Binary:
    """An object as binutils tell it."""

    def __init__(self, path: str):
        self.path = path
        self._read_sections()
        self._read_symbols()
        self._read_relocs()
        self._read_code()
        self._read_alternatives()
        self._read_hints()

    def _read_sections(self) -> None:
        self.sections, self.changed = {}, {}
        for line in lines_of("readelf", "-SW", self.path):
            if found := SECTION.match(line):
                number, name, kind, start, size, flags, info = found.groups()
                self.sections[int(number)] = Section(name, int(start, 16), int(size, 16), kind == "PROGBITS" and "X" in flags)
                self.changed[int(start, 16)] = int(info)

    def _read_symbols(self) -> None:
        self.symbols = {}
        for line in lines_of("readelf", "-sW", self.path):
            if found := SYMBOL.match(line):
                number, value, size, kind, bind, home, name = found.groups()
                self.symbols[int(number)] = Symbol(name, kind, bind, home, int(value, 16), int(size, 0))

    def _read_relocs(self) -> None:
        """The relocations at each place, in the file's order."""
        self.relocs, sec = collections.defaultdict(list), 0
        for line in lines_of("readelf", "-rW", self.path):
            if found := RELOCS.match(line):
                sec = self.changed[int(found[1], 16)]
            elif found := RELOC.match(line):
                offset, sym, kind, sign, far = found.groups()
                addend = int(far or "0", 16) * (-1 if sign == "-" else 1)
                self.relocs[Place(sec, int(offset, 16))].append(Reloc(kind, int(sym, 16), addend))

    def _read_code(self) -> None:
        """The places where instructions begin, and the direct calls and branches. objdump begins anew at each symbol of a section."""
        self.starts: set[Place] = set()
        self.branches: dict[Place, Branch] = {}
        texts = [number for number, section in sorted(self.sections.items()) if section.is_text and section.size > 0]
        sec = 0
        for line in lines_of("objdump", "-drwz", self.path):
            if found := DISASSEMBLY.match(line):
                sec = next(n for n in texts if n > sec and self.sections[n].name == found[1])
            elif found := INSN.match(line):
                self._read_insn(Place(sec, int(found[1], 16)), bytes.fromhex(found[2]), found[3] or "")

    def _read_insn(self, place: Place, code: bytes, text: str) -> None:
        self.starts.add(place)
        while found := PREFIX.match(text):
            text = text[found.end() :]
        if found := DIRECT.match(text):
            self.branches[place] = Branch(found[1], len(code), displacement_bytes(code), Place(place.sec, int(found[2], 16)))

    def numbers_of(self, name: str) -> list[int]:
        return [number for number, section in sorted(self.sections.items()) if section.name == name]

    def _named_at(self, field: Place) -> Optional[Place]:
        """The place that a relocation in a special section names."""
        for reloc in self.relocs.get(field, []):
            symbol = self.symbols[reloc.sym]
            if symbol.place is not None:
                return symbol.place.behind(reloc.addend)
        return None

    def pairs(self, name: str, size: int) -> list[tuple[Place, Place]]:
        """The places that the first two fields of each entry name, of special sections whose entries have so many bytes."""
        entries = [Place(sec, off) for sec in self.numbers_of(name) for off in range(0, self.sections[sec].size, size)]
        return [(self._named_at(entry), self._named_at(entry.behind(4))) for entry in entries]

    def listed(self, name: str) -> list[Place]:
        """The places that the relocations of a special section name."""
        fields = sorted(field for field in self.relocs if self.sections[field.sec].name == name)
        return [self._named_at(field) for field in fields]

    def _entries(self, name: str, size: int) -> list[tuple[Place, bytes]]:
        """The entries of so many bytes of a special section, each with the place where it lies."""
        with open(self.path, "rb") as file:
            content = file.read()
        entries = []
        for sec in self.numbers_of(name):
            section = self.sections[sec]
            body = content[section.start : section.start + section.size]
            entries += [(Place(sec, off), body[off : off + size]) for off in range(0, len(body), size)]
        return entries

    def _read_alternatives(self) -> None:
        self.alternatives = []
        lengths = [(entry[12], entry[13]) for _, entry in self._entries(".altinstructions", 14)]
        for (original, replacement), (original_len, replacement_len) in zip(self.pairs(".altinstructions", 14), lengths):
            self.alternatives.append(Alternative(original, replacement, original_len, replacement_len))

    def _read_hints(self) -> None:
        """The kind of the last hint at each place."""
        self.hints = {self._named_at(field): entry[7] for field, entry in self._entries(".discard.unwind_hints", 12)}

    def is_in_text(self, place: Place) -> bool:
        section = self.sections.get(place.sec)
        return section is not None and section.is_text and 0 <= place.off < section.size
