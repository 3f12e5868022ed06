"""ELF64 relocatable objects for x86-64, and how they are read.

An object is accepted exactly where it passes the steps of `parse`, which come in order; within one step the sections, symbols or
relocations are judged by ascending number. The first that fails refuses the object. The structures are those of the ELF-64 gABI,
the steps those of docs/FORMATS.md.
"""

import struct
from typing import NamedTuple, Optional, Union

from remembered import remembered
from texts import Refused

# Types of sections.
NULL, PROGBITS, SYMTAB, STRTAB, RELA, NOBITS, REL, GROUP, SYMTAB_SHNDX = 0, 1, 2, 3, 4, 8, 9, 17, 18
# Flags of sections.
WRITE, ALLOC, EXECINSTR, INFO_LINK, COMPRESSED = 1, 2, 4, 0x40, 0x800
# Binds and types of symbols.
LOCAL, GLOBAL, WEAK = 0, 1, 2
NOTYPE, OBJECT, FUNC, SECTION, FILE = 0, 1, 2, 3, 4
# Types of relocations: R_X86_64_64, _PC32, _PLT32, _32, _32S.
R_64, R_PC32, R_PLT32, R_32, R_32S = 1, 2, 4, 10, 11
FIELD_BYTES = {R_64: 8, R_PC32: 4, R_PLT32: 4, R_32: 4, R_32S: 4}
# Homes of symbols that are no section's number.
UNDEFINED, ABSOLUTE, COMMON = "undefined", "absolute", "common"
Home = Union[int, str]

SHN_LORESERVE, SHN_ABS, SHN_COMMON, SHN_XINDEX = 0xFF00, 0xFFF1, 0xFFF2, 0xFFFF
MOST_SECTIONS = 262_144
MOST_SYMBOLS = 4_194_304
MOST_TEXT = 16_777_216
MOST_U64 = (1 << 64) - 1


class Place(NamedTuple):
    """A byte of a section."""

    sec: int
    off: int


class Section(NamedTuple):
    name: bytes
    kind: int
    flags: int
    addr: int
    offset: int
    size: int
    link: int
    info: int
    align: int
    entsize: int
    body: bytes

    def is_text(self) -> bool:
        return self.kind == PROGBITS and self.flags & EXECINSTR != 0


class Symbol(NamedTuple):
    name: bytes
    bind: int
    kind: int
    other: int
    home: Home
    value: int
    size: int


class Reloc(NamedTuple):
    offset: int
    kind: int
    sym: int
    addend: int


class Object:
    """An object that was accepted."""

    def __init__(self, data, sections, symbols, relocs, name_table, headers_at):
        self.data: bytes = data
        self.sections: list[Section] = sections
        self.symbols: list[Symbol] = symbols
        # The relocations of each section that has a RELA section, in that table's order.
        self.relocs: dict[int, list[Reloc]] = relocs
        self.name_table: int = name_table
        self.headers_at: int = headers_at
        self.texts: list[int] = [i for i, section in enumerate(sections) if section.is_text()]
        self.symbol_table: Optional[int] = first(i for i, section in enumerate(sections) if section.kind == SYMTAB)
        self._at: dict[int, dict[int, list[Reloc]]] = {}

    def relocs_at(self, place: Place) -> list[Reloc]:
        """The relocations at exactly this offset of the section, in the table's order."""
        if place.sec not in self._at:
            by_offset: dict[int, list[Reloc]] = {}
            for reloc in self.relocs.get(place.sec, []):
                by_offset.setdefault(reloc.offset, []).append(reloc)
            self._at[place.sec] = by_offset
        return self._at[place.sec].get(place.off, [])

    def named_place(self, reloc: Reloc) -> Optional[tuple[int, int]]:
        """The section of the relocation's symbol, and the symbol's value plus the addend: a whole number of any size."""
        symbol = self.symbols[reloc.sym]
        return (symbol.home, symbol.value + reloc.addend) if isinstance(symbol.home, int) else None

    def section_symbol(self, sec: int) -> Optional[int]:
        """The first symbol of type SECTION of the section's first byte."""
        return first(i for i, symbol in enumerate(self.symbols) if symbol.kind == SECTION and symbol.home == sec and symbol.value == 0)

    def is_text(self, sec: Home) -> bool:
        return isinstance(sec, int) and self.sections[sec].is_text()


def first(items):
    """The first item, or None where there is none."""
    return next(iter(items), None)


class Header(NamedTuple):
    """A section header as it stands in the file."""

    name: int
    kind: int
    flags: int
    addr: int
    offset: int
    size: int
    link: int
    info: int
    align: int
    entsize: int


HEADER = struct.Struct("<IIQQQQIIQQ")
SYMBOL = struct.Struct("<IBBHQQ")
ENTRY = struct.Struct("<QQq")


@remembered
def parse(data: bytes) -> Object:
    """The object that the bytes are. Raises Refused."""
    check_file_header(data)
    headers_at, number, name_table = count_sections(data)
    if number > MOST_SECTIONS:
        raise Refused(f"too many sections: {number}")
    need(data, headers_at + 64 * number)
    headers = [Header(*HEADER.unpack_from(data, headers_at + 64 * i)) for i in range(number)]
    check_ranges(data, headers)
    check_tables(data, headers, name_table)
    check_links(headers)
    names = body_of(data, headers[name_table])
    for i, header in enumerate(headers):
        if header.name >= len(names):
            raise Refused(f"section {i}: bad name")
    symbols = read_symbols(data, headers)
    relocs = read_relocs(data, headers, len(symbols))
    sections = [Section(string(names, h.name), *h[1:], body_of(data, h)) for h in headers]
    text = sum(section.size for section in sections if section.is_text())
    if text > MOST_TEXT:
        raise Refused(f"too many text bytes: {text}")
    return Object(data, sections, symbols, relocs, name_table, headers_at)


def need(data: bytes, count: int) -> None:
    if count > len(data):
        raise Refused(f"file needs {min(count, MOST_U64)} bytes, has {len(data)}")


def u16(data: bytes, at: int) -> int:
    return int.from_bytes(data[at : at + 2], "little")


def u32(data: bytes, at: int) -> int:
    return int.from_bytes(data[at : at + 4], "little")


def u64(data: bytes, at: int) -> int:
    return int.from_bytes(data[at : at + 8], "little")


def check_file_header(data: bytes) -> None:
    """The first step: 64 bytes. The second: the fields that say what file it is; the first wrong one is told by its offset."""
    need(data, 64)
    wanted = [(at, byte, data[at]) for at, byte in enumerate(b"\x7fELF\x02\x01\x01")]
    wanted += [(16, 1, u16(data, 16)), (18, 62, u16(data, 18)), (20, 1, u32(data, 20)), (52, 64, u16(data, 52)), (58, 64, u16(data, 58))]
    for at, right, there in wanted:
        if there != right:
            raise Refused(f"not an x86-64 relocatable file at byte {at}")


def count_sections(data: bytes) -> tuple[int, int, int]:
    """Where the section headers are, how many there are, and which section is the table of section names."""
    headers_at, number, names = u64(data, 40), u16(data, 60), u16(data, 62)
    bad = Refused("section 0: bad table")
    reserved = SHN_LORESERVE <= names < SHN_XINDEX
    if number == 0 or names == SHN_XINDEX:
        # Header 0 has what doesn't fit in the file header.
        if headers_at == 0:
            raise bad
        need(data, headers_at + 64)
        header = Header(*HEADER.unpack_from(data, headers_at))
        number = header.size if number == 0 else number
        names = header.link if names == SHN_XINDEX else names
    if number == 0 or names >= number or reserved:
        raise bad
    return headers_at, number, names


def has_body(header: Header) -> bool:
    return header.kind not in (NULL, NOBITS)


def body_of(data: bytes, header: Header) -> bytes:
    return data[header.offset : header.offset + header.size] if has_body(header) else b""


def string(table: bytes, at: int) -> bytes:
    """The name that begins there: up to the next zero byte."""
    return table[at : table.index(0, at)]


def check_ranges(data: bytes, headers: list[Header]) -> None:
    """Each body lies in the file behind the file header, and a RELA body shares no byte with another body."""
    if headers[0].kind != NULL:
        raise Refused("section 0: bad table")
    spans = [(h.offset, h.offset + h.size, i) for i, h in enumerate(headers) if has_body(h) and h.size > 0]
    for i, header in enumerate(headers):
        if not has_body(header):
            continue
        start, end = header.offset, header.offset + header.size
        outside = end > len(data) or (header.size > 0 and start < 64)
        shared = header.kind == RELA and start < end and any(j != i and start < to and at < end for at, to, j in spans)
        if outside or shared:
            raise Refused(f"section {i}: outside the file")


def check_tables(data: bytes, headers: list[Header], name_table: int) -> None:
    """Tables have entries of the right size, strings end, and nothing that is read is compressed."""
    for i, header in enumerate(headers):
        kind, body = header.kind, body_of(data, header)
        entries = {SYMTAB: 24, RELA: 24, SYMTAB_SHNDX: 4}.get(kind)
        text = kind == PROGBITS and header.flags & EXECINSTR
        bad = [
            entries is not None and (header.entsize != entries or header.size % entries != 0),
            kind == STRTAB and not body.endswith(b"\0"),
            kind in (SYMTAB, SYMTAB_SHNDX) and any(h.kind == kind for h in headers[:i]),
            kind == REL,
            header.flags & COMPRESSED and (text or kind in (SYMTAB, SYMTAB_SHNDX, STRTAB, RELA)),
            i == name_table and kind != STRTAB,
        ]
        if any(bad):
            raise Refused(f"section {i}: bad table")


def check_links(headers: list[Header]) -> None:
    """Tables name the tables that they stand on."""
    symtab = first(i for i, h in enumerate(headers) if h.kind == SYMTAB)
    symbols = headers[symtab].size // 24 if symtab is not None else 0
    targets = set()
    for i, header in enumerate(headers):
        good = True
        if header.kind == SYMTAB:
            least = min(1, symbols)
            good = header.link < len(headers) and headers[header.link].kind == STRTAB and least <= header.info <= symbols
        elif header.kind == SYMTAB_SHNDX:
            good = header.link == symtab and header.size // 4 == symbols
        elif header.kind == RELA:
            good = header.link == (symtab or 0) and 1 <= header.info < len(headers) and header.info not in targets
            targets.add(header.info)
        elif header.kind == GROUP:
            good = header.link == symtab and header.info < symbols
        if not good:
            raise Refused(f"section {i}: bad link")


def read_symbols(data: bytes, headers: list[Header]) -> list[Symbol]:
    table = first(h for h in headers if h.kind == SYMTAB)
    if table is None:
        return []
    if table.size // 24 > MOST_SYMBOLS:
        raise Refused(f"too many symbols: {table.size // 24}")
    names = body_of(data, headers[table.link])
    extended = first(body_of(data, h) for h in headers if h.kind == SYMTAB_SHNDX)
    symbols = []
    for i, (name, info, other, shndx, value, size) in enumerate(SYMBOL.iter_unpack(body_of(data, table))):
        if name >= len(names):
            raise Refused(f"symbol {i}: bad name")
        home = home_of(shndx, u32(extended, 4 * i) if extended is not None else None, len(headers))
        local = info >> 4 == LOCAL
        if home is None or local != (i < table.info):
            raise Refused(f"symbol {i}: bad symbol")
        symbols.append(Symbol(string(names, name), info >> 4, info & 15, other, home, value, size))
    return symbols


def home_of(shndx: int, extended: Optional[int], sections: int) -> Optional[Home]:
    """Where a symbol is, by its st_shndx and its entry in the SYMTAB_SHNDX, if there is one."""
    if shndx == SHN_ABS:
        return ABSOLUTE
    if shndx == SHN_COMMON:
        return COMMON
    number = extended if shndx == SHN_XINDEX else shndx if shndx < SHN_LORESERVE else None
    if number is None or number >= sections:
        return None
    return number if number != 0 else UNDEFINED


def read_relocs(data: bytes, headers: list[Header], symbols: int) -> dict[int, list[Reloc]]:
    relocs = {}
    for i, header in enumerate(headers):
        if header.kind != RELA:
            continue
        entries = []
        for j, (offset, info, addend) in enumerate(ENTRY.iter_unpack(body_of(data, header))):
            reloc = Reloc(offset, info & 0xFFFF_FFFF, info >> 32, addend)
            field, filled = FIELD_BYTES.get(reloc.kind), headers[header.info]
            # (what a compressed section holds isn't read)
            outside = field is not None and not filled.flags & COMPRESSED and offset + field > filled.size
            if reloc.sym >= symbols or outside:
                raise Refused(f"section {i}: bad relocation {j}")
            entries.append(reloc)
        relocs[header.info] = entries
    return relocs
