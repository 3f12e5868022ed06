"""Writes an ELF-64 relocatable object for x86-64 of about 64 MB whose sections and symbols share long names: long_names.py FILE.

5,000 sections named by one text of 4 MB, 100,000 symbols named by another, and data that fill the file.
"""

import struct
import sys

SECTIONS, SYMBOLS, NAME, FILE = 5_000, 100_000, 4 << 20, 64 << 20

HEADER = struct.Struct("<IIQQQQIIQQ")
SYMBOL = struct.Struct("<IBBHQQ")


def main(path):
    names = b"\0.symtab\0.strtab\0.shstrtab\0.data\0.discard." + b"x" * NAME + b"\0"
    strings = b"\0__x86_" + b"y" * NAME + b"\0"
    symbols = SYMBOL.pack(0, 0, 0, 0, 0, 0) + SYMBOL.pack(1, 0x12, 0, 1, 0, 0) * SYMBOLS
    count = SECTIONS + 5
    fill = FILE - 64 - len(names) - len(strings) - len(symbols) - 64 * count
    at = [64]
    for body in (fill, len(symbols), len(strings), len(names)):
        at.append(at[-1] + body)
    heads = [HEADER.pack(0, 0, 0, 0, 0, 0, 0, 0, 0, 0)]
    heads += [HEADER.pack(names.index(b".discard."), 1, 2, 0, 64, 0, 0, 0, 1, 0)] * SECTIONS
    heads.append(HEADER.pack(names.index(b".data"), 1, 3, 0, at[0], fill, 0, 0, 1, 0))
    heads.append(HEADER.pack(names.index(b".symtab"), 2, 0, 0, at[1], len(symbols), count - 2, 1, 8, 24))
    heads.append(HEADER.pack(names.index(b".strtab"), 3, 0, 0, at[2], len(strings), 0, 0, 1, 0))
    heads.append(HEADER.pack(names.index(b".shstrtab"), 3, 0, 0, at[3], len(names), 0, 0, 1, 0))
    header = b"\x7fELF\x02\x01\x01" + bytes(9)
    header += struct.pack("<HHIQQQIHHHHHH", 1, 62, 1, 0, 0, at[4], 0, 64, 0, 0, 64, count, count - 1)
    with open(path, "wb") as out:
        out.write(header + bytes(fill) + symbols + strings + names + b"".join(heads))


main(sys.argv[1])
