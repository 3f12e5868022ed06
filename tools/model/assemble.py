"""An assembler for made-up objects: sections, labels, symbols, relocations and the entries of special sections. layout.py makes files."""

import random
from typing import NamedTuple, Optional, Union

import elf
from elf import ALLOC, EXECINSTR, FUNC, GLOBAL

CODE = ALLOC | EXECINSTR
DATA = ALLOC


class Label:
    """A place that code and tables name; it is known once it is bound. `home` is the section that it will lie in, where that is told."""

    def __init__(self, home: Optional[int] = None) -> None:
        self.home = home
        self.sec: Optional[int] = None
        self.off = 0

    def is_far(self, sec: int) -> bool:
        """Whether it lies in another section."""
        home = self.sec if self.sec is not None else self.home
        return home is not None and home != sec

    def bind(self, sec: int, off: int) -> None:
        self.sec, self.off = sec, off


class Part:
    """A section that is being made."""

    def __init__(self, name: str, flags: int, kind: int = elf.PROGBITS):
        self.name, self.flags, self.kind, self.body = name.encode(), flags, kind, bytearray()
        self.has_symbol = True


class MadeSymbol(NamedTuple):
    name: str
    bind: int
    kind: int
    label: Optional[Label]
    size: int


class Field(NamedTuple):
    """A field that a relocation fills: what it names is a label or an outside symbol's name."""

    sec: int
    at: int
    kind: int
    target: Union[Label, str]
    addend: int


class Assembler:
    def __init__(self, rng: random.Random, short: bool = True):
        self.rng, self.short = rng, short
        self.parts: list[Part] = [Part("", 0, elf.NULL)]
        self.symbols: list[MadeSymbol] = []
        # How many files it is made of, by its symbols.
        self.files = 0
        self.fields: list[Field] = []
        # Distances in code: section, offset, bytes, label.
        self.distances: list[tuple[int, int, int, Label]] = []
        # Where instructions were emitted.
        self.places: list[tuple[int, int]] = []
        # How many instructions were emitted, and what to do wrong at one of them.
        self.emitted = 0
        self.wrong_at: Optional[int] = None
        self.wrong = lambda code: code

    def section(self, name: str, flags: int = CODE) -> int:
        """The section of this name; made where it isn't there."""
        for number, part in enumerate(self.parts):
            if number and part.name == name.encode():
                return number
        self.parts.append(Part(name, flags))
        return len(self.parts) - 1

    def end(self, sec: int) -> int:
        return len(self.parts[sec].body)

    def here(self, sec: int) -> Label:
        label = Label()
        label.bind(sec, self.end(sec))
        return label

    def emit(self, sec: int, code: Union[str, bytes]) -> int:
        """Adds an instruction; tells where it begins."""
        code = bytes.fromhex(code) if isinstance(code, str) else code
        if self.emitted == self.wrong_at:
            code = self.wrong(code)
        self.emitted += 1
        at = self.end(sec)
        self.parts[sec].body += code
        self.places.append((sec, at))
        return at

    def branch(self, sec: int, opcode: str, label: Label, wide: Optional[bool] = None, relocated: bool = False) -> int:
        """Adds a branch or call to a label; `opcode` is that of four bytes: e8, e9, or 0f8x."""
        relocated = relocated or label.is_far(sec)
        wide = wide if wide is not None else opcode == "e8" or not self.short or self.rng.random() < 0.5
        if not wide and not relocated and opcode != "e8":
            at = self.emit(sec, bytes.fromhex("eb" if opcode == "e9" else "7" + opcode[3:]) + b"\0")
            self.distances.append((sec, self.end(sec) - 1, 1, label))
            return at
        at = self.emit(sec, bytes.fromhex(opcode) + bytes(4))
        if relocated:
            self.fields.append(Field(sec, self.end(sec) - 4, self.rng.choice((elf.R_PC32, elf.R_PLT32)), label, -4))
        else:
            self.distances.append((sec, self.end(sec) - 4, 4, label))
        return at

    def branch_out(self, sec: int, opcode: str, name: str) -> int:
        """Adds a branch or call to an outside or weak symbol."""
        at = self.emit(sec, bytes.fromhex(opcode) + bytes(4))
        self.fields.append(Field(sec, self.end(sec) - 4, self.rng.choice((elf.R_PC32, elf.R_PLT32)), name, -4))
        return at

    def entry(self, name: str, body: bytes, places: dict[int, Label], flags: int = DATA) -> None:
        """Adds an entry to a special section, with the labels at its fields."""
        sec = self.section(name, flags)
        at = self.end(sec)
        self.parts[sec].body += body
        for offset, label in places.items():
            self.fields.append(Field(sec, at + offset, elf.R_PC32, label, 0))

    def listed(self, name: str, label: Label) -> None:
        self.entry(name, bytes(4), {0: label})

    def define(self, name: str, label: Label, size: int, bind: int = GLOBAL, kind: int = FUNC) -> None:
        self.symbols.append(MadeSymbol(name, bind, kind, label, size))
