"""Changes of code and of whole files, by lot."""

import random
import struct

import elf

INSTEAD = """50 58 55 5d c9 4889e5 4889ec 4883ec08 4883c408 31ed 5c 0f0b c3 c20800 48cf cf 9d 0f01cb 0f01ca 74fe eb00 ffe0 ffd0
0f05 cc 488d2c24""".split()


def spoil(rng: random.Random, code: bytes) -> bytes:
    """An instruction made wrong: left out, doubled, with another bit, or another one in its place."""
    how = rng.choice(("out", "twice", "bit", "instead", "instead"))
    if how == "out":
        return b""
    if how == "twice":
        return code + code
    if how == "bit" and code:
        at = rng.randrange(len(code))
        return code[:at] + bytes([code[at] ^ 1 << rng.randrange(8)]) + code[at + 1 :]
    return bytes.fromhex(rng.choice(INSTEAD))


def number(rng: random.Random, old: int, bits: int) -> int:
    """Another number of so many bits: near the old one, or at an edge."""
    near = (old + 1, old - 1, old + 8, old - 8, old ^ 1 << rng.randrange(bits))
    edges = (0, 1, (1 << bits) - 1, 1 << bits - 1, rng.getrandbits(bits), rng.randrange(64))
    return rng.choice(near + edges) % (1 << bits)


def put(data: bytearray, rng: random.Random, at: int, size: int) -> None:
    if 0 <= at and at + size <= len(data):
        old = int.from_bytes(data[at : at + size], "little")
        data[at : at + size] = number(rng, old, 8 * size).to_bytes(size, "little")


FILE_FIELDS = [(16, 2), (18, 2), (20, 4), (24, 8), (40, 8), (40, 8), (52, 2), (58, 2), (60, 2), (60, 2), (62, 2), (62, 2)]
SECTION_FIELDS = [(0, 4), (4, 4), (4, 4), (8, 8), (24, 8), (32, 8), (32, 8), (40, 4), (44, 4), (48, 8), (56, 8)]
SYMBOL_FIELDS = [(0, 4), (4, 1), (4, 1), (5, 1), (6, 2), (6, 2), (8, 8), (8, 8), (16, 8), (16, 8)]
RELOC_FIELDS = [(0, 8), (0, 8), (8, 4), (8, 4), (12, 4), (12, 4), (16, 8), (16, 8)]


def mutated(data: bytes, rng: random.Random) -> bytes:
    """The file with one or two changes: cut, with other bytes, or with another number in some field."""
    changed = bytearray(data)
    for _ in range(rng.choice((1, 1, 1, 2))):
        how = rng.choice(("cut", "byte", "header", "section", "section", "symbol", "symbol", "reloc", "reloc", "body", "body"))
        if how == "cut":
            del changed[rng.randrange(len(changed) + 1) :]
        elif how == "byte" and changed:
            changed[rng.randrange(len(changed))] = rng.getrandbits(8)
        elif how == "header":
            put(changed, rng, *rng.choice(FILE_FIELDS))
        else:
            change_table(changed, rng, how)
    return bytes(changed)


def change_table(data: bytearray, rng: random.Random, how: str) -> None:
    """Changes a section header, or a field of a section's body."""
    try:
        headers_at, count = struct.unpack_from("<Q", data, 40)[0], struct.unpack_from("<H", data, 60)[0]
        headers = [elf.Header(*elf.HEADER.unpack_from(data, headers_at + 64 * i)) for i in range(count)]
    except (struct.error, OverflowError):
        return
    if how == "section" and headers:
        field, size = rng.choice(SECTION_FIELDS)
        put(data, rng, headers_at + 64 * rng.randrange(len(headers)) + field, size)
        return
    wanted = {"symbol": elf.SYMTAB, "reloc": elf.RELA}.get(how)
    tables = [h for h in headers if h.size and (h.kind == wanted if wanted else h.kind == elf.PROGBITS)]
    if not tables:
        return
    table = rng.choice(tables)
    if wanted is None:
        put(data, rng, table.offset + rng.randrange(table.size), 1)
        return
    field, size = rng.choice(SYMBOL_FIELDS if how == "symbol" else RELOC_FIELDS)
    put(data, rng, table.offset + 24 * rng.randrange(max(1, table.size // 24)) + field, size)
