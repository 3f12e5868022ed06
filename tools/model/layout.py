"""Puts made-up objects together: the order of sections, symbols and relocations, and by which symbol a place is named, are by lot."""

import random

from assemble import Assembler, Field, Label
from elf import ABSOLUTE, COMMON, FILE, FUNC, GLOBAL, LOCAL, NOTYPE, OBJECT, SECTION, UNDEFINED, WEAK, Reloc, Symbol
from elf_make import NewSection, make


class TooFar(Exception):
    """A branch of one byte doesn't reach its label."""


def distance(sec: int, at: int, count: int, label: Label) -> int:
    """What stands in a branch's field at this place; nothing of another section."""
    return label.off - at - count if label.sec == sec else 0


def all_reach(asm: Assembler) -> bool:
    """Whether each branch of one byte reaches its label."""
    return all(-128 <= distance(sec, at, count, label) <= 127 for sec, at, count, label in asm.distances if at >= 0 and count == 1)


# Outside symbols that have a home of their own.
HOMES = {"absolute": ABSOLUTE, "common": COMMON}


def names_a_target(name: bytes) -> bool:
    """Whether the name decides by itself where a branch goes."""
    return name.startswith(b"__x86_")


class Layout:
    """One object that is put together. The same seed puts it together in the same way."""

    def __init__(self, asm: Assembler, seed: str):
        self.asm, self.rng = asm, random.Random(f"{seed}/layout")
        parts = list(range(1, len(asm.parts)))
        if self.rng.random() < 0.2:
            self.rng.shuffle(parts)
        self.order = parts
        self.number = {0: 0} | {sec: number for number, sec in enumerate(parts, 1)}
        self._resolve()
        self.symbols: list[Symbol] = []
        self.numbers: dict = {}
        self._list_symbols()

    def _resolve(self) -> None:
        if not all_reach(self.asm):
            raise TooFar
        for sec, at, count, label in self.asm.distances:
            if at < 0:
                continue
            value = distance(sec, at, count, label)
            self.asm.parts[sec].body[at : at + count] = value.to_bytes(count, "little", signed=True)

    def _home(self, label) -> int:
        return self.number[label.sec or 0]

    def _list_symbols(self) -> None:
        """The symbols, the local ones first, and the numbers by name or section."""
        rng = self.rng
        listed = [(sec, Symbol(b"", LOCAL, SECTION, 0, self.number[sec], 0, 0)) for sec in self.order if self.asm.parts[sec].has_symbol]
        for made in self.asm.symbols:
            listed.append((made.name, Symbol(made.name.encode(), made.bind, made.kind, 0, self._home(made.label), made.label.off, made.size)))
        defined = {name for name, _ in listed}
        outside = {field.target for field in self.asm.fields if isinstance(field.target, str)} - defined
        listed += [(name, Symbol(name.encode(), GLOBAL, NOTYPE, 0, HOMES.get(name, UNDEFINED), 0, 0)) for name in sorted(outside)]
        listed += [(("file", i), Symbol(b"made%d.c" % i, LOCAL, FILE, 0, ABSOLUTE, 0, 0)) for i in range(self.asm.files)]
        listed += self._more_symbols() if rng.random() < 0.2 else []
        if rng.random() < 0.3:
            rng.shuffle(listed)
        listed.sort(key=lambda item: item[1].bind != LOCAL)
        for number, (key, symbol) in enumerate(listed, 1):
            self.symbols.append(symbol)
            self.numbers.setdefault(key, number)

    def _more_symbols(self) -> list:
        """Symbols that say nothing of code."""
        rng = self.rng
        homes = [self.number[sec] for sec, part in enumerate(self.asm.parts) if part.body] or [UNDEFINED]
        kinds = [
            Symbol(b"made.c", LOCAL, FILE, 0, ABSOLUTE, 0, 0),
            Symbol(b"", LOCAL, SECTION, 0, rng.choice(homes), 1, 0),
            Symbol(b"", LOCAL, SECTION, 0, rng.choice(homes), 0, 0),
            Symbol(b"data", GLOBAL, OBJECT, 0, rng.choice(homes), 0, 4),
            Symbol(b"elsewhere", GLOBAL, FUNC, 0, UNDEFINED, 0, 8),
            Symbol(b"fixed", GLOBAL, FUNC, 0, ABSOLUTE, 0, 8),
            Symbol(b"f0", LOCAL, OBJECT, 0, rng.choice(homes), 0, 0),
        ]
        return [(("more", i), symbol) for i, symbol in enumerate(rng.sample(kinds, rng.randint(1, 3)))]

    def _reloc(self, field: Field) -> Reloc:
        at = max(0, field.at)
        if not isinstance(field.target, Label):
            return Reloc(at, field.kind, self.numbers[field.target], field.addend)
        home = self._home(field.target)
        near = [(n, s) for n, s in enumerate(self.symbols, 1) if s.home == home and home and s.bind != WEAK and not names_a_target(s.name)]
        section = [(n, s) for n, s in near if s.kind == SECTION]
        number, symbol = self.rng.choice(section if section and self.rng.random() < 0.7 else near or [(0, None)])
        return Reloc(at, field.kind, number, field.target.off - (symbol.value if symbol else 0) + field.addend)

    def object(self) -> bytes:
        relocs = [(self.number[field.sec], self._reloc(field)) for field in self.asm.fields]
        if self.rng.random() < 0.1:
            self.rng.shuffle(relocs)
        if self.rng.random() < 0.05 and relocs:
            # Two relocations at one field.
            sec, reloc = self.rng.choice(relocs)
            relocs.insert(self.rng.randrange(len(relocs)), (sec, reloc._replace(kind=self.rng.choice((2, 4, 11, 24)), sym=1, addend=0)))
        parts = [self.asm.parts[sec] for sec in self.order]
        return make([NewSection(part.name, part.kind, part.flags, bytes(part.body)) for part in parts], self.symbols, relocs)
