"""Small objects written down by hand: code as hexadecimal digits, and places as offsets of `.text` or pairs of section and offset."""

import elf
from elf import ABSOLUTE, ALLOC, EXECINSTR, FILE, FUNC, GLOBAL, LOCAL, NOTYPE, SECTION, UNDEFINED, Reloc, Symbol
from elf_make import NewSection, make

REPLACEMENTS = ".altinstr_replacement"
SECTIONS = {
    "alternatives": (".altinstructions", 14),
    "branches": ("__jump_table", 16),
    "fixups": ("__ex_table", 12),
    "hints": (".discard.unwind_hints", 12),
    "reachable": (".discard.reachable", 4),
    "unreachable": (".discard.unreachable", 4),
    "unchecked": (".discard.func_stack_frame_non_standard", 4),
    "safe": (".discard.retpoline_safe", 4),
    "intra": (".discard.intra_function_calls", 4),
}


def spot(place) -> tuple[str, int]:
    return (".text", place) if isinstance(place, int) else place


class Sketch:
    """An object. `code` and `data` are sections by name; `functions` have a name, a place and a size, and maybe a bind and a type."""

    def __init__(self, code, functions=(), data=None, relocs=(), without_symbol=(), files=0, **entries):
        self.parts = [NewSection(name.encode(), flags=ALLOC | EXECINSTR, body=bytes.fromhex(hexa)) for name, hexa in code.items()]
        self.parts += [NewSection(name.encode(), body=bytes(size)) for name, size in (data or {}).items()]
        self.number = {part.name.decode(): i for i, part in enumerate(self.parts, 1)}
        self.fields: list[tuple[str, int, int, object, int]] = list(relocs)
        for kind, listed in entries.items():
            self._entries(*SECTIONS[kind], listed)
        self.symbols = [("", Symbol(b"", LOCAL, SECTION, 0, i, 0, 0)) for name, i in self.number.items() if name not in without_symbol]
        for name, place, size, *how in functions:
            sec, off = spot(place)
            bind, kind = [*how, GLOBAL, FUNC][0], how[1] if len(how) > 1 else FUNC
            self.symbols.append((name, Symbol(name.encode(), bind, kind, 0, self.number[sec], off, size)))
        self.symbols += [(f"file {i}", Symbol(b"made%d.c" % i, LOCAL, FILE, 0, ABSOLUTE, 0, 0)) for i in range(files)]
        names = {target for *_, target, _ in self.fields if isinstance(target, str)} - {name for name, _ in self.symbols}
        self.symbols += [(name, Symbol(name.encode(), GLOBAL, NOTYPE, 0, UNDEFINED, 0, 0)) for name in sorted(names)]
        self.symbols.sort(key=lambda item: item[1].bind != LOCAL)

    def _entries(self, section: str, size: int, listed) -> None:
        """Each entry is its places and then the bytes behind their fields."""
        body = b""
        for entry in listed:
            entry = entry if isinstance(entry, list) else [entry]
            places = [item for item in entry if not isinstance(item, bytes)]
            rest = b"".join(item for item in entry if isinstance(item, bytes))
            self.fields += [(section, len(body) + 4 * i, elf.R_PC32, place, 0) for i, place in enumerate(places)]
            body += (bytes(4 * len(places)) + rest).ljust(size, b"\0")
        self.parts.append(NewSection(section.encode(), body=body))
        self.number[section] = len(self.parts)

    def _reloc(self, offset: int, kind: int, target, addend: int) -> Reloc:
        if isinstance(target, str):
            number = next(i for i, (name, _) in enumerate(self.symbols, 1) if name == target)
            return Reloc(offset, kind, number, addend)
        sec, off = spot(target)
        near = [(s.kind != SECTION, i, s.value) for i, (_, s) in enumerate(self.symbols, 1) if s.home == self.number[sec]]
        _, number, value = min(near)
        return Reloc(offset, kind, number, off - value + addend)

    def object(self) -> bytes:
        relocs = [(self.number[sec], self._reloc(at, kind, target, addend)) for sec, at, kind, target, addend in self.fields]
        return make(self.parts, [symbol for _, symbol in self.symbols], relocs)


def to(at: int, target, sec: str = ".text", kind: int = elf.R_PLT32):
    """The relocation of a call or wide branch at its four bytes."""
    return sec, at, kind, target, -4


def alt(start: int, length: int, replacement: int, size: int, feature: int = 1, sec: str = REPLACEMENTS, flags: int = 0):
    numbers = feature.to_bytes(2, "little") + flags.to_bytes(2, "little") + bytes([length, size])
    return [start, (sec, replacement), numbers]


def hint(place, kind: int, sp_offset: int = 8, signal: int = 0, sp_reg: int = 5):
    return [place, sp_offset.to_bytes(2, "little") + bytes([sp_reg, kind, signal, 0, 0, 0])]


def label(name: str, place, size: int = 1, bind: int = GLOBAL):
    """A symbol that is no function."""
    return name, place, size, bind, NOTYPE


UNDEFINED_HINT, END, CALL, REGS, PARTIAL, FUNC_HINT, SAVE, RESTORE = range(8)
