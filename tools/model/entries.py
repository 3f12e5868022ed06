"""Made-up objects of little code and many entries of special sections, most of which are right."""

import random
import struct

import elf
from elf import ABSOLUTE, ALLOC, COMMON, COMPRESSED, EXECINSTR, FUNC, GLOBAL, LOCAL, NOTYPE, SECTION, UNDEFINED, WEAK, Reloc, Symbol
from elf_make import NewSection, make

INSNS = [bytes.fromhex(code) for code in "90 6690 0f1f00 89d8 50 58 eb00 7400 e800000000 c3 0f0b ffd0 48cf cc".split()]
TABLES = {b".altinstructions": 14, b"__jump_table": 16, b"__ex_table": 12, b".discard.unwind_hints": 12}
LISTS = (b".discard.reachable", b".discard.unreachable", b".discard.func_stack_frame_non_standard", b".discard.retpoline_safe")


class Lot:
    """One object of this kind."""

    def __init__(self, seed):
        self.rng = random.Random(f"{seed}/entries")
        # How often a number is wrong.
        self.wrong = self.rng.choice((0, 0, 0.01, 0.03, 0.1))
        self.boundaries: dict[int, list[int]] = {}
        self.parts = [self.text(1, b".text"), self.text(2, b".text.more"), NewSection(b".data", body=bytes(64))]
        self.relocs: list[tuple[int, Reloc]] = []
        self.symbols = [Symbol(b"", LOCAL, SECTION, 0, sec, 0, 0) for sec in (1, 2, 3)]
        self.symbols += self.functions(1, 2) + self.functions(2, 1)
        self.symbols += [Symbol(b"abs", GLOBAL, NOTYPE, 0, ABSOLUTE, 4, 0), Symbol(b"com", GLOBAL, NOTYPE, 0, COMMON, 4, 8)]
        self.symbols += [Symbol(b"out", GLOBAL, NOTYPE, 0, UNDEFINED, 0, 0), Symbol(b"weak", WEAK, NOTYPE, 0, 1, 0, 0)]

    def text(self, sec: int, name: bytes) -> NewSection:
        code, starts = b"", []
        for _ in range(self.rng.randint(3, 16)):
            starts.append(len(code))
            code += self.rng.choice(INSNS)
        self.boundaries[sec] = starts + [len(code)]
        return NewSection(name, flags=ALLOC | EXECINSTR, body=code + b"\xc3")

    def functions(self, sec: int, most: int) -> list[Symbol]:
        starts = sorted(self.rng.sample(self.boundaries[sec][:-1], min(most, len(self.boundaries[sec]) - 1)))
        ends = starts[1:] + [self.boundaries[sec][-1] + 1]
        names = [f"f{sec}{i}".encode() for i in range(len(starts))]
        made = []
        for name, start, end in zip(names, starts, ends):
            start, size = self.spoiled(start), self.spoiled(end - start)
            made.append(Symbol(name, GLOBAL, FUNC, 0, sec, max(0, start), max(0, size)))
        return made

    def is_wrong(self) -> bool:
        return self.rng.random() < self.wrong

    def spoiled(self, number: int) -> int:
        return number + self.rng.choice((-1, 1, 2, 40)) if self.is_wrong() else number

    def naming(self, sec: int, at: int, end: bool = False, ordinary: bool = True) -> None:
        """The relocation of a field: to a boundary, where it isn't wrong; the end is one where it is asked for."""
        rng = self.rng
        if self.is_wrong():
            return
        home = rng.choice((1, 1, 1, 2)) if ordinary or rng.random() < 0.8 else 3
        starts = self.boundaries.get(home, [0, 8])
        off = rng.choice(starts) if not end or rng.random() < 0.7 else starts[-1] + 1
        off = rng.choice((-1, off + 1, 1 << 40, starts[-1] + 1, starts[-1] + 2)) if self.is_wrong() else off
        sym = home if not self.is_wrong() else rng.randrange(0, len(self.symbols) + 1)
        value = self.symbols[sym - 1].value if sym else 0
        kind = rng.choice((1, 10, 11)) if rng.random() < 0.05 else rng.choice((4, 24, 0)) if self.is_wrong() else 2
        if rng.random() < 0.03:
            self.relocs.append((sec, Reloc(at, rng.choice((4, 24, 2)), 1, 0)))
        self.relocs.append((sec, Reloc(at, kind, sym, off - value)))

    def entry(self, sec: int, name: bytes, at: int) -> bytes:
        """The bytes of an entry, whose fields get their relocations."""
        rng, size = self.rng, TABLES[name]
        if name == b".discard.unwind_hints":
            self.naming(sec, at)
            kind = rng.randrange(8) if not self.is_wrong() else rng.choice((8, 200))
            offset = {2: rng.choice((8, 16)), 3: 8, 4: 0}.get(kind, rng.choice((0, 8, -8)))
            offset = offset if not self.is_wrong() else rng.choice((-1, 0, 7))
            signal = {3: 1, 4: 1}.get(kind, 0) if not self.is_wrong() else rng.choice((0, 1, 2))
            return struct.pack("<IhBBB3x", 0, offset, 5 if not self.is_wrong() else 4, kind, signal)
        self.naming(sec, at)
        lengths = rng.choice(((0, 0), (1, 0), (1, 1), (2, 1), (2, 2), (3, 3), (5, 2), (5, 5), (0, 1))) if name == b".altinstructions" else (1, 1)
        self.naming(sec, at + 4, end=lengths[1] == 0)
        if name == b".altinstructions":
            return struct.pack("<8xHHBB", rng.choice((1, 308)), rng.choice((0, 0, 1)), *lengths)
        return bytes(size)

    def make(self) -> bytes:
        rng = self.rng
        names = [name for name in (*TABLES, *LISTS) if rng.random() < 0.4]
        names += rng.sample(names, 1) if names and rng.random() < 0.2 else []
        rng.shuffle(names)
        for name in names:
            sec, body, flags = len(self.parts) + 1, b"", ALLOC | (COMPRESSED if self.is_wrong() else 0)
            for _ in range(rng.choice((0, 1, 1, 1, 2, 3))):
                if name in TABLES:
                    body += self.entry(sec, name, len(body))
                else:
                    both_ends = name in (b".discard.reachable", b".discard.unreachable")
                    self.naming(sec, len(body), both_ends, b"func" not in name)
                    body += bytes(4)
            body += bytes(rng.choice((1, 4))) if self.is_wrong() else b""
            kind = elf.PROGBITS if rng.random() < 0.95 else rng.choice((elf.NOBITS, 7))
            self.parts.append(NewSection(name, kind, flags, body if kind != elf.NOBITS else b""))
        sizes = [len(part.body) for part in self.parts]
        fits = [(sec, r) for sec, r in self.relocs if r.offset + elf.FIELD_BYTES.get(r.kind, 0) <= sizes[sec - 1]]
        return make(self.parts, self.symbols, fits)


def entries_by_lot(seed) -> bytes:
    return Lot(seed).make()
