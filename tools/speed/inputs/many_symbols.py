"""Writes a large ELF-64 relocatable object for x86-64: many_symbols.py FILE.

60,000 sections: that of no section, functions with their relocations and their data, one for the stack, and the tables.
2,000,000 symbols: one for each section of functions and data, then functions and data, one half of them local.
"""

import struct
import sys

SECTIONS = 60_000
SYMBOLS = 2_000_000
UNITS = (SECTIONS - 6) // 3
NAMES = 200_000
TEXT_SIZE, DATA_SIZE, RELOCS = 64, 32, 8

SHT_PROGBITS, SHT_SYMTAB, SHT_STRTAB, SHT_RELA = 1, 2, 3, 4
SHF_WRITE, SHF_ALLOC, SHF_EXECINSTR, SHF_INFO_LINK = 1, 2, 4, 64
STB_LOCAL, STB_GLOBAL, STB_WEAK = 0, 1, 2
STT_OBJECT, STT_FUNC, STT_SECTION = 1, 2, 3
SHN_ABS, SHN_COMMON = 0xFFF1, 0xFFF2
# R_X86_64_PLT32, R_X86_64_PC32, R_X86_64_32S, R_X86_64_64
KINDS = (4, 2, 11, 1)

HEADER = struct.Struct("<IIQQQQIIQQ")
SYMBOL = struct.Struct("<IBBHQQ")
RELOC = struct.Struct("<QQq")


def string_table(names):
    """The table, and the offset of each name in it."""
    table, offsets = bytearray(b"\0"), []
    for name in names:
        offsets.append(len(table))
        table += name.encode() + b"\0"
    return bytes(table), offsets


def symbol_table(names):
    """The entries, and how many of them are local."""
    entries = bytearray(SYMBOL.pack(0, 0, 0, 0, 0, 0))
    for unit in range(UNITS):
        for section in (1 + 3 * unit, 3 + 3 * unit):
            entries += SYMBOL.pack(0, STB_LOCAL << 4 | STT_SECTION, 0, section, 0, 0)
    locals_end = SYMBOLS // 2
    for k in range(1 + 2 * UNITS, SYMBOLS):
        unit, place = k % UNITS, k // UNITS
        bind = STB_LOCAL if k < locals_end else STB_WEAK if k % 16 == 0 else STB_GLOBAL
        name = names[k % NAMES]
        if bind == STB_GLOBAL and k % 16 == 1:
            entries += SYMBOL.pack(name, bind << 4, 0, 0, 0, 0)
        elif bind == STB_GLOBAL and k % 64 == 2:
            entries += SYMBOL.pack(name, bind << 4 | STT_OBJECT, 0, SHN_COMMON, 8, 8)
        elif k % 64 == 3:
            entries += SYMBOL.pack(name, bind << 4, 0, SHN_ABS, k, 0)
        elif k % 4 == 0:
            entries += SYMBOL.pack(name, bind << 4 | STT_OBJECT, 0, 3 + 3 * unit, place % DATA_SIZE, 1)
        else:
            entries += SYMBOL.pack(name, bind << 4 | STT_FUNC, 0, 1 + 3 * unit, place % TEXT_SIZE, 1)
    return bytes(entries), locals_end


def relocations(unit):
    """Those of the functions of a unit: each has eight bytes of its own."""
    return b"".join(
        RELOC.pack(8 * k, (1 + (unit * 97 + k * 250_007) % (SYMBOLS - 1)) << 32 | KINDS[k % 4], -4 * (k % 2))
        for k in range(RELOCS)
    )


def write(path):
    symtab, strtab, shstrtab = SECTIONS - 3, SECTIONS - 2, SECTIONS - 1
    symbol_strings, names = string_table(f"name_{k}" for k in range(NAMES))
    symbols, locals_end = symbol_table(names)
    titles = [t for u in range(UNITS) for t in (f".text.f{u}", f".rela.text.f{u}", f".data.d{u}")]
    titles += [".note.GNU-stack", ".comment", ".symtab", ".strtab", ".shstrtab"]
    section_strings, title_at = string_table(titles)

    headers, bodies, at = [HEADER.pack(*[0] * 10)], [], 64

    def add(kind, flags, body, link=0, info=0, align=1, entsize=0):
        nonlocal at
        gap = -at % align
        bodies.append(bytes(gap) + body)
        at += gap
        name = title_at[len(headers) - 1]
        headers.append(HEADER.pack(name, kind, flags, 0, at, len(body), link, info, align, entsize))
        at += len(body)

    for unit in range(UNITS):
        text = len(headers)
        add(SHT_PROGBITS, SHF_ALLOC | SHF_EXECINSTR, b"\x90" * TEXT_SIZE, align=16)
        add(SHT_RELA, SHF_INFO_LINK, relocations(unit), link=symtab, info=text, align=8, entsize=24)
        add(SHT_PROGBITS, SHF_ALLOC | SHF_WRITE, bytes(DATA_SIZE), align=8)
    add(SHT_PROGBITS, 0, b"")
    add(SHT_PROGBITS, 0, b"made for a measurement\0")
    add(SHT_SYMTAB, 0, symbols, link=strtab, info=locals_end, align=8, entsize=24)
    add(SHT_STRTAB, 0, symbol_strings)
    add(SHT_STRTAB, 0, section_strings)
    assert len(headers) == SECTIONS and len(symbols) == 24 * SYMBOLS

    gap = -at % 8
    file_header = struct.pack(
        "<16sHHIQQQIHHHHHH",
        b"\x7fELF\x02\x01\x01", 1, 62, 1, 0, 0, at + gap, 0, 64, 0, 0, 64, SECTIONS, shstrtab,
    )
    with open(path, "wb") as file:
        file.write(file_header)
        file.writelines(bodies)
        file.write(bytes(gap))
        file.writelines(headers)


write(sys.argv[1])
