"""Made-up objects of little code and many kinds of sections, and their headers changed."""

import random
import struct

import elf
from elf import ABSOLUTE, ALLOC, COMMON, EXECINSTR, FUNC, GLOBAL, LOCAL, SECTION, UNDEFINED, Reloc, Symbol
from elf_make import NewSection, make
from mutate import mutated

HEADERS_AT, NUMBER_AT, NAMES_AT = 40, 60, 62


def sections_by_lot(rng: random.Random) -> list[NewSection]:
    kinds = [
        NewSection(b".text", flags=ALLOC | EXECINSTR, body=rng.choice((b"\xc3", b"\x90\xc3", b""))),
        NewSection(b".text.more", flags=ALLOC | EXECINSTR, body=b"\x53\x5b\xc3"),
        NewSection(b".bss", elf.NOBITS, 3),
        NewSection(b".null", elf.NULL, 0),
        NewSection(b".strings", elf.STRTAB, 0, b"\0a\0"),
        NewSection(b".data", flags=3, body=bytes(24)),
        NewSection(b".note", 7, 0, bytes(rng.randrange(20)), rng.choice((1, 4, 16))),
        NewSection(b".group", elf.GROUP, 0, bytes(8), 4, 4),
        NewSection(b".packed", flags=0x800, body=b"abc"),
        NewSection(b".rela.more", elf.RELA, 0, bytes(24 * rng.randrange(2)), 8, 24),
        NewSection(b".shndx", elf.SYMTAB_SHNDX, 0, b"", 4, 4),
        NewSection(rng.choice((b".orc_unwind", b".orc_unwind_ip", b".rela.orc_unwind_ip", b".orc_header")), body=b""),
    ]
    chosen = [kind for kind in kinds if rng.random() < (0.9 if kind.name == b".text" else 0.05 if kind.name.startswith(b".orc") else 0.3)]
    return chosen + ([rng.choice(chosen)] if chosen and rng.random() < 0.1 else [])


def symbols_by_lot(rng: random.Random, sections: list[NewSection]) -> list[Symbol]:
    texts = [i for i, section in enumerate(sections, 1) if section.flags & EXECINSTR and section.body]
    symbols = [Symbol(b"", LOCAL, SECTION, 0, i, 0, 0) for i in range(1, len(sections) + 1) if rng.random() < 0.6]
    symbols += [Symbol(b"f%d" % i, GLOBAL, FUNC, 0, i, 0, len(sections[i - 1].body)) for i in texts]
    symbols += [Symbol(b"a", GLOBAL, 1, 0, home, 0, 0) for home in (UNDEFINED, ABSOLUTE, COMMON) if rng.random() < 0.5]
    return symbols


def linked(data: bytes, rng: random.Random, symbols: int) -> bytes:
    """The links of tables that name the symbol table, whose number is known once the file is made."""
    changed = bytearray(data)
    at, number = struct.unpack_from("<Q", data, HEADERS_AT)[0], struct.unpack_from("<H", data, NUMBER_AT)[0]
    headers = [elf.Header(*elf.HEADER.unpack_from(data, at + 64 * i)) for i in range(number)]
    symtab = max(i for i, header in enumerate(headers) if header.kind == elf.SYMTAB)
    for i, header in enumerate(headers):
        if header.kind in (elf.GROUP, elf.SYMTAB_SHNDX):
            header = header._replace(link=symtab, info=rng.randrange(symbols + 1) if header.kind == elf.GROUP else 0)
        if header.kind == elf.RELA and header.link == 0:
            header = header._replace(link=symtab, info=rng.randrange(1, number))
        if header.kind == elf.NOBITS:
            header = header._replace(size=rng.choice((0, 16, 1 << 50)))
        if header.kind == elf.SYMTAB_SHNDX:
            changed.extend(bytes(-len(changed) % 8))
            header = header._replace(offset=len(changed), size=4 * (symbols + 1))
            changed.extend(bytes(4 * (symbols + 1)))
        elf.HEADER.pack_into(changed, at + 64 * i, *header)
    return bytes(changed)


def moved_to_header(data: bytes, rng: random.Random) -> bytes:
    """The number of sections or the number of the name table told by header 0, as where they don't fit."""
    changed = bytearray(data)
    at, number, names = struct.unpack_from("<Q", data, HEADERS_AT)[0], *struct.unpack_from("<HH", data, NUMBER_AT)
    if rng.random() < 0.7:
        struct.pack_into("<H", changed, NUMBER_AT, 0)
        struct.pack_into("<Q", changed, at + 32, number)
    if rng.random() < 0.7:
        struct.pack_into("<H", changed, NAMES_AT, 0xFFFF)
        struct.pack_into("<I", changed, at + 40, names)
    return bytes(changed)


def homes_in_the_table(data: bytes, rng: random.Random) -> bytes:
    """Some symbols' sections told by the SYMTAB_SHNDX."""
    changed = bytearray(data)
    at, number = struct.unpack_from("<Q", data, HEADERS_AT)[0], struct.unpack_from("<H", data, NUMBER_AT)[0]
    headers = [elf.Header(*elf.HEADER.unpack_from(data, at + 64 * i)) for i in range(number)]
    tables = {header.kind: header for header in headers}
    if elf.SYMTAB_SHNDX in tables:
        symtab, shndx = tables[elf.SYMTAB], tables[elf.SYMTAB_SHNDX]
        for i in range(symtab.size // 24):
            home = struct.unpack_from("<H", data, symtab.offset + 24 * i + 6)[0]
            if rng.random() < 0.5 and (home < number or rng.random() < 0.1):
                struct.pack_into("<H", changed, symtab.offset + 24 * i + 6, 0xFFFF)
                struct.pack_into("<I", changed, shndx.offset + 4 * i, home if rng.random() < 0.95 else number + rng.choice((0, 1, 70_000)))
    return bytes(changed)


def container_by_lot(seed) -> bytes:
    rng = random.Random(f"{seed}/container")
    sections = sections_by_lot(rng)
    symbols = symbols_by_lot(rng, sections)
    relocs = []
    for i, section in enumerate(sections, 1):
        if section.name == b".data":
            relocs += [(i, Reloc(8 * j, 1, rng.randrange(len(symbols) + 1), rng.randrange(3))) for j in range(rng.randrange(3))]
    data = linked(make(sections, symbols, relocs), rng, len(symbols))
    data = homes_in_the_table(data, rng)
    if rng.random() < 0.15:
        data = moved_to_header(data, rng)
    return mutated(data, rng) if rng.random() < 0.8 else data
