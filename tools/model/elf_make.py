"""Making small ELF64 relocatable objects, by the layout that docs/FORMATS.md gives to objects that are made."""

import struct
from typing import NamedTuple

from elf import (
    ABSOLUTE,
    ALLOC,
    COMMON,
    ENTRY,
    HEADER,
    INFO_LINK,
    LOCAL,
    NULL,
    PROGBITS,
    RELA,
    SHN_ABS,
    SHN_COMMON,
    SHN_LORESERVE,
    SHN_XINDEX,
    STRTAB,
    SYMBOL,
    SYMTAB,
    SYMTAB_SHNDX,
    UNDEFINED,
    Header,
    Reloc,
    Symbol,
)


class NewSection(NamedTuple):
    """A section to be made or added."""

    name: bytes
    kind: int = PROGBITS
    flags: int = ALLOC
    body: bytes = b""
    align: int = 1
    entsize: int = 0
    link: int = 0
    info: int = 0


def pad(data: bytearray, align: int) -> None:
    """Zero bytes up to a multiple."""
    data.extend(bytes(-len(data) % align))


def strings(names) -> tuple[bytes, list[int]]:
    """A string table, a zero byte and then each name with one, and where each name begins; an empty name adds nothing."""
    table, offsets = bytearray(1), []
    for name in names:
        offsets.append(len(table) if name else 0)
        table += name + b"\0" if name else b""
    return bytes(table), offsets


def symbol_bytes(symbol: Symbol, name: int) -> bytes:
    small = {UNDEFINED: 0, ABSOLUTE: SHN_ABS, COMMON: SHN_COMMON}.get(symbol.home, symbol.home)
    shndx = small if isinstance(symbol.home, str) or small < SHN_LORESERVE else SHN_XINDEX
    return SYMBOL.pack(name, symbol.bind << 4 | symbol.kind, symbol.other, shndx, symbol.value, symbol.size)


def make(sections: list[NewSection], symbols: list[Symbol], relocs: list[tuple[int, Reloc]]) -> bytes:
    """The object with these sections (from 1), symbols (from 1, the local ones first) and relocations of sections.

    Behind the sections come a RELA section for each that has relocations, the symbol table, its numbers of sections where some
    don't fit, and the two string tables.
    """
    all_sections = [NewSection(b"", NULL, 0, b"", 0)] + list(sections)
    targets = sorted({sec for sec, _ in relocs})
    wide = any(isinstance(s.home, int) and s.home >= SHN_LORESERVE for s in symbols)
    symtab = len(all_sections) + len(targets)
    strtab = symtab + 1 + wide
    for sec in targets:
        body = b"".join(ENTRY.pack(r.offset, r.sym << 32 | r.kind, r.addend) for s, r in relocs if s == sec)
        all_sections.append(NewSection(b".rela" + all_sections[sec].name, RELA, INFO_LINK, body, 8, 24, symtab, sec))
    names, offsets = strings(s.name for s in symbols)
    table = bytes(24) + b"".join(symbol_bytes(s, at) for s, at in zip(symbols, offsets))
    all_sections.append(NewSection(b".symtab", SYMTAB, 0, table, 8, 24, strtab, 1 + sum(s.bind == LOCAL for s in symbols)))
    if wide:
        homes = [s.home if isinstance(s.home, int) and s.home >= SHN_LORESERVE else 0 for s in symbols]
        all_sections.append(NewSection(b".symtab_shndx", SYMTAB_SHNDX, 0, struct.pack(f"<I{len(homes)}I", 0, *homes), 4, 4, symtab))
    all_sections.append(NewSection(b".strtab", STRTAB, 0, names))
    all_sections.append(NewSection(b".shstrtab", STRTAB, 0))
    names, offsets = strings(s.name for s in all_sections)
    all_sections[-1] = all_sections[-1]._replace(body=names)
    return file_of(all_sections, offsets)


def file_of(sections: list[NewSection], names: list[int]) -> bytes:
    """The file of these sections, of which the last is the table of section names; `names` tells where each name begins."""
    data, headers = bytearray(64), []
    for section, name in zip(sections, names):
        at = 0
        if section.kind != NULL:
            pad(data, section.align)
            at = len(data)
            data += section.body
        headers.append(Header(name, section.kind, section.flags, 0, at, len(section.body), section.link, section.info, section.align, section.entsize))
    pad(data, 8)
    number, last = len(headers), len(headers) - 1
    headers[0] = headers[0]._replace(size=number if number >= SHN_LORESERVE else 0, link=last if last >= SHN_LORESERVE else 0)
    number = number if number < SHN_LORESERVE else 0
    last = last if last < SHN_LORESERVE else SHN_XINDEX
    ident = b"\x7fELF\x02\x01\x01" + bytes(9)
    data[:64] = ident + struct.pack("<HHIQQQIHHHHHH", 1, 62, 1, 0, 0, len(data), 0, 64, 0, 0, 64, number, last)
    data += b"".join(HEADER.pack(*header) for header in headers)
    return bytes(data)
