"""Writes an ELF-64 relocatable object for x86-64 with much that says something of its code: special_code.py FILE [shared].

5 MB of text, 60,000 functions, 400,000 relocations, 20,000 alternatives. With `shared`, also 1,000 more jumps by one table
of 1,000,000 entries.
"""

import struct
import sys

FUNCTIONS, SIZE, JUMP_EVERY, ENTRIES = 60_000, 84, 30, 14
ALTERNATIVES, FIXES, BRANCHES, HINTS, REACHABLE = 20_000, 20_000, 10_000, 8_000, 12_000
SHARING, SHARED = 1_000, 1_000_000

R_64, R_PC32, R_PLT32, R_32S = 1, 2, 4, 11
ALLOC, EXEC, INFO_LINK = 2, 4, 0x40

HEADER = struct.Struct("<IIQQQQIIQQ")
SYMBOL = struct.Struct("<IBBHQQ")
RELA = struct.Struct("<QQq")

TEXT, REPLACEMENT, RODATA, ALTINSTRUCTIONS, FIX, BRANCH, HINT, REACH = range(1, 9)
NAMES = [
    ".text",
    ".altinstr_replacement",
    ".rodata",
    ".altinstructions",
    "__ex_table",
    "__jump_table",
    ".discard.unwind_hints",
    ".discard.reachable",
]
FLAGS = [ALLOC | EXEC, ALLOC | EXEC, ALLOC, ALLOC, ALLOC, ALLOC, 0, 0]

PUSH_MOV = bytes.fromhex("554889e5")
CALL = bytes.fromhex("e800000000")
NOP = bytes.fromhex("0f1f4000")
JUMP = bytes.fromhex("ff24c500000000")


def parts():
    """The functions that are parts of another one: their symbols are local and stand first."""
    return [i for i in range(FUNCTIONS) if i % 10 == 9]


def code(relocs, symbol_of):
    """push, mov, four calls, a nop of four bytes at 24, pop, ret, and then a jump by a table or nops."""
    text = bytearray()
    for i in range(FUNCTIONS):
        at = i * SIZE
        for k in range(4):
            relocs[TEXT].append((at + 5 + 5 * k, R_PLT32, symbol_of[(i * 7919 + k) % FUNCTIONS], -4))
        body = PUSH_MOV + CALL * 4 + NOP + b"\x5d\xc3"
        if i % JUMP_EVERY == 0:
            relocs[TEXT].append((at + len(body) + 3, R_32S, RODATA, 8 * ENTRIES * (i // JUMP_EVERY)))
            for k in range(ENTRIES):
                relocs[RODATA].append((8 * ENTRIES * (i // JUMP_EVERY) + 8 * k, R_64, TEXT, at + 37 + k % 5))
            body += JUMP + b"\xc3" * 5
        text += body + NOP * ((SIZE - len(body)) // 4) + b"\x90" * ((SIZE - len(body)) % 4)
    return text


def bodies(relocs, symbol_of, shared):
    """The body of each section, and the relocations of all."""
    text = code(relocs, symbol_of)
    table = 8 * ENTRIES * (FUNCTIONS // JUMP_EVERY)
    rodata = table
    if shared:
        for k in range(SHARING):
            relocs[TEXT].append((len(text) + 3, R_32S, RODATA, table))
            text += JUMP
        for k in range(SHARED):
            relocs[RODATA].append((table + 8 * k, R_64, TEXT, FUNCTIONS * SIZE + 7 * (k % SHARING)))
        rodata += 8 * SHARED
    for k in range(ALTERNATIVES):
        relocs[ALTINSTRUCTIONS].append((14 * k, R_PC32, TEXT, 3 * k * SIZE + 24))
        relocs[ALTINSTRUCTIONS].append((14 * k + 4, R_PC32, REPLACEMENT, 4 * k))
    for k in range(FIXES):
        relocs[FIX].append((12 * k, R_PC32, TEXT, k * SIZE + 1))
        relocs[FIX].append((12 * k + 4, R_PC32, TEXT, k * SIZE + 28))
    for k in range(BRANCHES):
        relocs[BRANCH].append((16 * k, R_PC32, TEXT, (6 * k + 1) * SIZE + 24))
        relocs[BRANCH].append((16 * k + 4, R_PC32, TEXT, (6 * k + 1) * SIZE + 28))
        relocs[BRANCH].append((16 * k + 8, R_64, symbol_of["key"], 0))
    for k in range(HINTS):
        relocs[HINT].append((12 * k, R_PC32, TEXT, 7 * k * SIZE + 1))
    for k in range(REACHABLE):
        relocs[REACH].append((4 * k, R_PC32, TEXT, 5 * k * SIZE + 29))
    return [
        bytes(text),
        NOP * ALTERNATIVES,
        bytes(rodata),
        struct.pack("<iiHHBB", 0, 0, 5, 0, 4, 4) * ALTERNATIVES,
        bytes(12 * FIXES),
        bytes(16 * BRANCHES),
        struct.pack("<IhBBBBBB", 0, 16, 5, 2, 0, 0, 0, 0) * HINTS,
        bytes(4 * REACHABLE),
    ]


def symbols():
    """The symbol table, the names of its symbols, the number of local ones, and each function's symbol."""
    table, names, symbol_of = [SYMBOL.pack(0, 0, 0, 0, 0, 0)], bytearray(b"\0"), {}

    def add(key, name, info, home, value, size):
        symbol_of[key] = len(table)
        table.append(SYMBOL.pack(len(names) if name else 0, info, 0, home, value, size))
        if name:
            names.extend(name.encode() + b"\0")

    for section in range(1, len(NAMES) + 1):
        add(("section", section), "", 0x03, section, 0, 0)
    apart = parts()
    for i in apart:
        add(i, f"f{i - 9}.cold", 0x02, TEXT, i * SIZE, SIZE)
    local = len(table)
    for i in sorted(set(range(FUNCTIONS)) - set(apart)):
        add(i, f"f{i}", 0x12, TEXT, i * SIZE, SIZE)
    add("key", "key", 0x10, 0, 0, 0)
    return b"".join(table), bytes(names), local, symbol_of


def main(path, shared):
    table, strings, local, symbol_of = symbols()
    relocs = {section: [] for section in range(1, len(NAMES) + 1)}
    pieces = bodies(relocs, symbol_of, shared)
    heads = [(name, 1, flags, 0, 0, 0, body) for name, flags, body in zip(NAMES, FLAGS, pieces)]
    with_relocs = [section for section in relocs if relocs[section]]
    symtab = len(heads) + len(with_relocs) + 1
    for section in with_relocs:
        rows = b"".join(RELA.pack(at, symbol << 32 | kind, addend) for at, kind, symbol, addend in relocs[section])
        heads.append((".rela" + NAMES[section - 1], 4, INFO_LINK, symtab, section, 24, rows))
    heads.append((".symtab", 2, 0, symtab + 1, local, 24, table))
    heads.append((".strtab", 3, 0, 0, 0, 0, strings))
    names = b"\0" + b"".join(name.encode() + b"\0" for name, *_ in heads) + b".shstrtab\0"
    heads.append((".shstrtab", 3, 0, 0, 0, 0, names))

    out, rows = bytearray(64), [HEADER.pack(0, 0, 0, 0, 0, 0, 0, 0, 0, 0)]
    name_at = 1
    for name, kind, flags, link, info, entsize, body in heads:
        out += bytes(-len(out) % 8)
        rows.append(HEADER.pack(name_at, kind, flags, 0, len(out), len(body), link, info, 1 if entsize == 0 else 8, entsize))
        name_at += len(name) + 1
        out += body
    out += bytes(-len(out) % 8)
    out[:64] = b"\x7fELF\x02\x01\x01" + bytes(9) + struct.pack(
        "<HHIQQQIHHHHHH", 1, 62, 1, 0, 0, len(out), 0, 64, 0, 0, 64, len(rows), len(rows) - 1
    )
    with open(path, "wb") as file:
        file.write(out + b"".join(rows))
    print(sum(len(rows) for rows in relocs.values()), "relocations")


main(sys.argv[1], sys.argv[2:] == ["shared"])
