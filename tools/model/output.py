"""The object that `check` writes (docs/FORMATS.md): its input, with the section symbols that the rows need, and the sections of the rows."""

import struct

from elf import (
    ALLOC,
    ENTRY,
    GROUP,
    HEADER,
    INFO_LINK,
    LOCAL,
    R_PC32,
    RELA,
    SECTION,
    SHN_LORESERVE,
    SYMTAB,
    SYMTAB_SHNDX,
    Header,
    Object,
    Symbol,
    parse,
)
from elf_make import NewSection, pad, symbol_bytes


def headers_of(object: Object) -> list[Header]:
    return [Header(*HEADER.unpack_from(object.data, object.headers_at + 64 * i)) for i in range(len(object.sections))]


def placed(data: bytearray, body: bytes, align: int = 8) -> int:
    """Adds the body at the next multiple; tells where."""
    pad(data, align)
    data += body
    return len(data) - len(body)


def with_headers(data: bytearray, headers: list[Header]) -> bytes:
    """The file with its section headers at the end."""
    at = placed(data, b"".join(HEADER.pack(*header) for header in headers))
    data[40:48] = struct.pack("<Q", at)
    return bytes(data)


def with_section_symbols(object: Object, secs: list[int]) -> bytes:
    """The object with a symbol for each of the sections, behind the last local one; what names later symbols names them still."""
    if not secs:
        return object.data
    data, headers = bytearray(object.data), headers_of(object)
    table = headers[object.symbol_table]
    locals_, added = table.info, len(secs)
    for i, header in enumerate(headers):
        if header.kind == RELA:
            for at in range(header.offset, header.offset + header.size, 24):
                offset, info, addend = ENTRY.unpack_from(data, at)
                moved = info + (added << 32) if info >> 32 >= locals_ else info
                ENTRY.pack_into(data, at, offset, moved, addend)
        if header.kind == GROUP and header.info >= locals_:
            headers[i] = header._replace(info=header.info + added)
    new = b"".join(symbol_bytes(Symbol(b"", LOCAL, SECTION, 0, sec, 0, 0), 0) for sec in secs)
    insert_into(data, headers, object, SYMTAB, 24 * locals_, new)
    headers[object.symbol_table] = headers[object.symbol_table]._replace(info=locals_ + added)
    numbers = b"".join(struct.pack("<I", sec if sec >= SHN_LORESERVE else 0) for sec in secs)
    insert_into(data, headers, object, SYMTAB_SHNDX, 4 * locals_, numbers)
    return with_headers(data, headers)


def insert_into(data: bytearray, headers: list[Header], object: Object, kind: int, at: int, new: bytes) -> None:
    """Gives the section of this kind, if there is one, a body at the end of the file: its own with the new bytes in it."""
    for i, section in enumerate(object.sections):
        if section.kind == kind:
            body = section.body[:at] + new + section.body[at:]
            headers[i] = headers[i]._replace(offset=placed(data, body), size=len(body))


def append(object: Object, new: list[NewSection]) -> bytes:
    """The object with further sections. Old bodies stay, but for that of the table of names, which gets longer."""
    if not new:
        return object.data
    data, headers = bytearray(object.data), headers_of(object)
    names = bytearray(object.sections[object.name_table].body)
    starts = []
    for section in new:
        starts.append(len(names))
        names += section.name + b"\0"
    headers[object.name_table] = headers[object.name_table]._replace(offset=placed(data, names), size=len(names))
    for section, name in zip(new, starts):
        at = placed(data, section.body)
        headers.append(Header(name, section.kind, section.flags, 0, at, len(section.body), section.link, section.info, section.align, section.entsize))
    number = len(headers)
    data[60:62] = struct.pack("<H", number if number < SHN_LORESERVE else 0)
    headers[0] = headers[0]._replace(size=number if number >= SHN_LORESERVE else 0)
    return with_headers(data, headers)


def orc_row(row) -> bytes:
    bits = row.sp_reg | row.bp_reg << 4 | row.kind << 8 | row.signal << 11
    return struct.pack("<hhH", row.sp_offset, row.bp_offset, bits)


def with_rows(object: Object, rows: list) -> bytes:
    """The object with the sections of its rows."""
    without = sorted({place.sec for place, _ in rows if object.section_symbol(place.sec) is None})
    full = parse(with_section_symbols(object, without))
    first = len(full.sections)
    rela = b"".join(
        ENTRY.pack(4 * i, full.section_symbol(place.sec) << 32 | R_PC32, place.off) for i, (place, _) in enumerate(rows)
    )
    return append(
        full,
        [
            NewSection(b".orc_unwind", 1, ALLOC, b"".join(orc_row(row) for _, row in rows), 1, 6),
            NewSection(b".orc_unwind_ip", 1, ALLOC, bytes(4 * len(rows)), 4, 4),
            NewSection(b".rela.orc_unwind_ip", RELA, INFO_LINK, rela, 8, 24, full.symbol_table or 0, first + 1),
        ],
    )
