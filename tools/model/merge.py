"""`merge` and `find` (docs/FORMATS.md, "Layouts and merged tables"): the rows of ORC sections, a layout's lines, one table of many objects."""

import re
import struct
from typing import NamedTuple, Optional

import elf
from commands import DONE, LONGEST_FILE, Answer, answered, first_named, text_of_symbol
from elf import R_PC32, Object, Place
from output import orc_row
from remembered import remembered
from rows import ZERO, Row
from texts import KINDS, REGISTERS, Refused

MAGIC = b"ORCM\x01\0\0\0"
LONGEST_LAYOUT, MOST_FILES, MOST_ROWS = 16_777_216, 1_024, 4_000_000
ROW = struct.Struct("<hhH")


def row_of(packed: bytes) -> Optional[Row]:
    """The row in six bytes, if its fields are in order."""
    sp_offset, bp_offset, bits = ROW.unpack(packed)
    row = Row(sp_offset, bp_offset, bits & 15, bits >> 4 & 15, bits >> 8 & 7, bool(bits >> 11 & 1))
    is_right = row.sp_reg < len(REGISTERS) and row.bp_reg < len(REGISTERS) and row.kind < len(KINDS) and bits >> 12 == 0
    return row if is_right else None


def place_fault(object: Object, i: int, relocs: list, count: int, slot: bytes) -> str:
    if i >= len(relocs) or (i + 1 == count and len(relocs) > count):
        return "NoReloc"
    reloc = relocs[i]
    if reloc.kind != R_PC32:
        return "Kind"
    if reloc.offset != 4 * i:
        return "Offset"
    sec = text_of_symbol(object, reloc.sym)
    if sec is None:
        return "Symbol"
    if not 0 <= reloc.addend <= object.sections[sec].size:
        return "Range"
    return "NotZero" if slot != bytes(4) else ""


@remembered
def orc_rows(object: Object) -> list[tuple[Place, Row]]:
    """The rows that the object's ORC sections hold. Raises Refused."""
    secs = []
    for name, width in ((b".orc_unwind", 6), (b".orc_unwind_ip", 4)):
        sec = first_named(object, name)
        if sec is None:
            raise Refused(f"no section {name.decode()}")
        secs.append((sec, name, width))
    for sec, name, width in secs:
        size = len(object.sections[sec].body)
        if size % width:
            raise Refused(f"section {name.decode()}: bad length {size}")
    table, slots = (object.sections[sec].body for sec, _, _ in secs)
    count, places = len(table) // 6, len(slots) // 4
    if count != places:
        raise Refused(f"{count} rows, {places} places")
    relocs = object.relocs.get(secs[1][0], [])
    if count == 0 and relocs:
        raise Refused("row 0: bad slot: NoReloc")
    rows = []
    for i in range(count):
        row = row_of(table[6 * i : 6 * i + 6])
        if row is None:
            raise Refused(f"row {i}: bad bits")
        why = place_fault(object, i, relocs, count, slots[4 * i : 4 * i + 4])
        if why:
            raise Refused(f"row {i}: bad slot: {why}")
        rows.append((Place(text_of_symbol(object, relocs[i].sym), relocs[i].addend), row))
    return rows


class File(NamedTuple):
    name: str
    places: dict[int, int]


def number_in(pattern: bytes, base: int, word: bytes) -> Optional[int]:
    return int(word, base) if re.fullmatch(pattern, word) else None


def layout_of(text: bytes) -> list[File]:
    """The files of a layout. Raises Refused."""
    files: list[File] = []
    for line, words in enumerate((line.split(b" ") for line in text.split(b"\n")), 1):
        if words == [b""] or words[0].startswith(b"#"):
            continue
        wrong = Refused(f"layout line {line}: Number")
        if words[0] == b"file":
            if len(words) != 2 or not re.fullmatch(rb"[\x21-\x7e]+", words[1]):
                raise wrong
            files.append(File(words[1].decode(), {}))
        elif words[0] == b"place":
            section = number_in(rb"[0-9]{1,10}", 10, words[1]) if len(words) == 3 else None
            base = number_in(rb"[0-9a-f]{1,16}", 16, words[2]) if len(words) == 3 else None
            if section is None or section >= 1 << 32 or base is None or not files:
                raise wrong
            if section in files[-1].places:
                raise Refused(f"layout line {line}: Repeated")
            files[-1].places[section] = base
        else:
            raise Refused(f"layout line {line}: Word")
    return files


class Part(NamedTuple):
    """An object's rows, and the base and size of each placed section in the order of the layout's lines."""

    rows: list[tuple[Place, Row]]
    ranges: dict[int, tuple[int, int]]


def part_of(data: bytes, places: dict[int, int]) -> Part:
    if len(data) > LONGEST_FILE:
        raise Refused(f"is longer than {LONGEST_FILE} bytes")
    object = elf.parse(data)
    rows = orc_rows(object)
    for sec in places:
        if sec >= len(object.sections) or not object.is_text(sec):
            raise Refused(f"section {sec}: no text")
    return Part(rows, {sec: (base, object.sections[sec].size) for sec, base in places.items()})


def place_part(part: Part) -> None:
    """A section that has rows lies somewhere; no range wraps or shares an address with an earlier one. Raises Refused."""
    for (place, _) in part.rows:
        if place.sec not in part.ranges:
            raise Refused(f"section {place.sec}: not placed")
    earlier: list[tuple[int, int, int]] = []
    for sec, (base, size) in part.ranges.items():
        if base + size >= 1 << 64:
            raise Refused(f"section {sec}: wraps")
        for other, begin, end in earlier:
            if max(begin, base) < min(end, base + size):
                raise Refused(f"section {sec}: overlaps {other}")
        earlier.append((sec, base, base + size))


def merged(parts: list[Part]) -> list[tuple[int, Row]]:
    """The rows of all at their addresses. Raises Refused."""
    for number, part in enumerate(parts):
        try:
            place_part(part)
        except Refused as refused:
            raise Refused(f"file {number}: {refused}") from None
    for number, part in enumerate(parts):
        for sec, (_, size) in part.ranges.items():
            own = sorted(((place.off, row.kind != 0, i, row) for i, (place, row) in enumerate(part.rows) if place.sec == sec), key=lambda it: it[:3])
            if own and not (size > 0 and own[-1][0] == size and own[-1][3] == ZERO):
                raise Refused(f"file {number} section {sec}: not ended")
    earlier: list[tuple[int, int, int, int]] = []
    for number, part in enumerate(parts):
        for sec, (base, size) in part.ranges.items():
            for of, other, begin, end in earlier:
                if of < number and max(begin, base) < min(end, base + size):
                    raise Refused(f"file {number} section {sec}: overlaps file {of} section {other}")
            earlier.append((number, sec, base, base + size))
    rows = [(part.ranges[place.sec][0] + place.off, row) for part in parts for place, row in part.rows]
    if len(rows) > MOST_ROWS:
        raise Refused(f"too many rows: {len(rows)}")
    return sorted(rows, key=lambda it: (it[0], it[1].kind != 0))


def table_of(rows: list[tuple[int, Row]]) -> bytes:
    head = MAGIC + struct.pack("<Q", len(rows))
    return head + b"".join(struct.pack("<Q", address) for address, _ in rows) + b"".join(orc_row(row) for _, row in rows)


def merge(layout: bytes, files: dict[str, bytes]) -> Answer:
    """The answer of `merge` on a layout, where these files are there."""

    def answer() -> Answer:
        if len(layout) > LONGEST_LAYOUT:
            raise Refused(f"LAYOUT is longer than {LONGEST_LAYOUT} bytes")
        said = layout_of(layout)
        if len(said) > MOST_FILES:
            raise Refused(f"too many files: {len(said)}")
        parts = []
        for number, file in enumerate(said):
            if file.name not in files:
                raise Refused(f"file {number}: {file.name} is missing")
            try:
                parts.append(part_of(files[file.name], file.places))
            except Refused as refused:
                raise Refused(f"file {number}: {refused}") from None
        return Answer(DONE, [], [], table_of(merged(parts)))

    return answered(answer)


def table_fault(data: bytes) -> Optional[int]:
    """The first offset that is wrong in the file of a merged table."""
    for at, (there, wanted) in enumerate(zip(data[:8], MAGIC)):
        if there != wanted:
            return at
    if len(data) < 16:
        return len(data)
    (count,) = struct.unpack_from("<Q", data, 8)
    if count > MOST_ROWS or 16 + 14 * count != len(data):
        return 8
    addresses = struct.unpack_from(f"<{count}Q", data, 16)
    for i in range(1, count):
        if addresses[i] < addresses[i - 1]:
            return 16 + 8 * i
    rows = [row_of(data[16 + 8 * count + 6 * i :][:6]) for i in range(count)]
    for i, row in enumerate(rows):
        if row is None or (row.kind == 0 and i > 0 and rows[i - 1].kind != 0 and addresses[i] == addresses[i - 1]):
            return 16 + 8 * count + 6 * i
    return None


def find(table: bytes, address: int) -> Answer:
    """The answer of `find`."""

    def answer() -> Answer:
        off = table_fault(table)
        if off is not None:
            raise Refused(f"table: bad at byte {off}")
        (count,) = struct.unpack_from("<Q", table, 8)
        below = [i for i, there in enumerate(struct.unpack_from(f"<{count}Q", table, 16)) if there <= address]
        if not below:
            return Answer(DONE, ["no row"])
        row = row_of(table[16 + 8 * count + 6 * below[-1] :][:6])
        cfa, bp = f"{REGISTERS[row.sp_reg]}{row.sp_offset:+d}", f"{REGISTERS[row.bp_reg]}{row.bp_offset:+d}"
        return Answer(DONE, [f"{address:#x}: {KINDS[row.kind]} cfa {cfa} bp {bp}{' signal' if row.signal else ''}"])

    return answered(answer)
