"""Writes one of the worst objects (and other inputs) near the limits: make.py NAME FILE, and make.py alone lists the names.
SCALE=N in the environment makes all an Nth as large: where that doesn't take an Nth of the time, it isn't linear.

Each is a function that returns the bytes, and whose first line says what they are. Beside a name stand the words of the
command, where OBJECT is the file and OUT another one, and the statuses that are allowed: 6 only where no program could hold
what the definitions ask for.
"""

import os
import random
import struct
import sys
from array import array

SCALE = int(os.environ.get("SCALE", 1))
FILE, TEXT_BYTES = 67_108_864 // SCALE, 16_777_216 // SCALE
R_NONE, R_64, R_PC32, R_PLT32, R_32S = 0, 1, 2, 4, 11
ALLOC, EXEC, INFO_LINK = 2, 4, 0x40
LOCAL, GLOBAL, SECTION, FUNC = 0, 0x10, 3, 2

HEADER = struct.Struct("<IIQQQQIIQQ")
SYMBOL = struct.Struct("<IBBHQQ")
RELA = struct.Struct("<QQq")
NOP, RET, UD2 = b"\x90", b"\xc3", b"\x0f\x0b"


class Object:
    """An object that grows by sections, symbols and relocations. Section and symbol numbers are those of the file."""

    def __init__(self):
        self.heads = []
        self.names = bytearray(b"\0")
        self.strings = bytearray(b"\0")
        self.locals = [SYMBOL.pack(0, 0, 0, 0, 0, 0)]
        self.others = []
        self.relocs = {}

    def name(self, text):
        at = len(self.names)
        self.names += text + b"\0"
        return at

    def section(self, name, body, flags=0, kind=1):
        """Adds a section, and returns its number. The name is a text, or a place in the names."""
        at = self.name(name) if isinstance(name, bytes) else name
        self.heads.append((at, kind, flags, body))
        return len(self.heads)

    def text(self, body, name=b".text"):
        return self.section(name, body, ALLOC | EXEC)

    def string(self, text):
        at = len(self.strings)
        self.strings += text + b"\0"
        return at

    def local(self, name=0, home=0, value=0, size=0, kind=FUNC):
        """Adds a local symbol, and returns its number. All of them come before the others. The name is a place."""
        self.locals.append(SYMBOL.pack(name, LOCAL | kind, 0, home, value, size))
        return len(self.locals) - 1

    def outside(self, name):
        """Adds a symbol that isn't defined, and returns its number. No local one may come behind it."""
        self.others.append(SYMBOL.pack(self.string(name), GLOBAL, 0, 0, 0, 0))
        return len(self.locals) + len(self.others) - 1

    def function(self, home, value, size, name=b"f"):
        return self.local(self.string(name), home, value, size)

    def section_symbol(self, home):
        return self.local(home=home, kind=SECTION)

    def relocate(self, section, rows):
        """Adds relocations to a section: the bytes of RELA entries."""
        self.relocs.setdefault(section, bytearray()).extend(rows)

    def bytes(self):
        symtab = len(self.heads) + len(self.relocs) + 1
        heads = [(name, kind, flags, body, 0, 0, 0) for name, kind, flags, body in self.heads]
        rela, named = self.name(b".rela") if self.relocs else 0, len(self.locals) + len(self.others) > 1
        for section, rows in sorted(self.relocs.items()):
            heads.append((rela, 4, INFO_LINK, rows, symtab, section, 24))
        if named:
            heads.append((self.name(b".symtab"), 2, 0, b"".join(self.locals + self.others), symtab + 1, len(self.locals), 24))
            heads.append((self.name(b".strtab"), 3, 0, self.strings, 0, 0, 0))
        heads.append((self.name(b".shstrtab"), 3, 0, self.names, 0, 0, 0))
        out, rows, count = bytearray(64), [], len(heads) + 1
        for name, kind, flags, body, link, info, entsize in heads:
            out += bytes(-len(out) % 8)
            rows.append(HEADER.pack(name, kind, flags, 0, len(out), len(body), link, info, 8 if entsize else 1, entsize))
            out += body
        out += bytes(-len(out) % 8)
        many = count >= 0xFF00
        rows.insert(0, HEADER.pack(0, 0, 0, 0, 0, count if many else 0, count - 1 if many else 0, 0, 0, 0))
        out[:64] = b"\x7fELF\x02\x01\x01" + bytes(9) + struct.pack(
            "<HHIQQQIHHHHHH", 1, 62, 1, 0, 0, len(out), 0, 64, 0, 0, 64, 0 if many else count, 0xFFFF if many else count - 1
        )
        out += b"".join(rows)
        assert len(out) <= FILE, len(out)
        return out


def scaled(count):
    return count // SCALE


def rela(offsets, kind, symbol, addends):
    """The bytes of relocations of one type and symbol, at these offsets and with these addends."""
    count = len(offsets)
    words = array("q", bytes(24 * count))
    words[0::3] = array("q", offsets)
    words[1::3] = array("q", [symbol << 32 | kind]) * count
    words[2::3] = array("q", addends)
    return words.tobytes()


def interleaved(*columns):
    """Rows of 24 bytes, one of each column in turn."""
    rows = [memoryview(it) for it in columns]
    return b"".join(row[at : at + 24] for at in range(0, len(columns[0]), 24) for row in rows)


def one_function(code):
    """An object whose only text is this code, of one function; and its section's number and symbol."""
    made = Object()
    text = made.text(code)
    symbol = made.section_symbol(text)
    made.function(text, 0, len(code))
    return made, text, symbol


def jump(at, to):
    return b"\xe9" + struct.pack("<i", to - at - 5)


def branch(at, to):
    return b"\x0f\x84" + struct.pack("<i", to - at - 6)


def call(at, to):
    return b"\xe8" + struct.pack("<i", to - at - 5)


# Names and sections.


def names():
    """262,000 sections, each named by most of one text of 50 MB without a zero byte"""
    made, count = Object(), scaled(262_000)
    text = b".altinstructions" * ((FILE - 64 * (count + 2) - 200) // 16)
    first = made.name(text)
    for k in range(count):
        made.section(first + 16 * (k % scaled(100_000)), b"")
    return made.bytes()


def text_names():
    """180,000 text sections of 60 bytes, each named by most of one text of 40 MB"""
    made, count = Object(), scaled(180_000)
    first = made.name(b".text" * scaled(8_000_000))
    for k in range(count):
        made.text(NOP * 59 + RET, first + 5 * k)
    return made.bytes()


def empty_texts():
    """262,000 empty text sections"""
    made = Object()
    for _ in range(scaled(262_000)):
        made.text(b"", 1)
    made.names += b".text\0"
    return made.bytes()


def small_texts():
    """240,000 text sections of one function each, whose symbols are missing"""
    made = Object()
    for _ in range(scaled(240_000)):
        made.text(b"\x53\x5b" + RET, 1)
    made.names += b".text\0"
    return made.bytes()


def relocated_texts():
    """120,000 text sections with relocations of their own"""
    made = Object()
    made.names += b".text\0"
    symbol = made.outside(b"outside")
    for _ in range(scaled(120_000)):
        text = made.text(call(0, 0) + RET, 1)
        made.relocate(text, rela([1], R_PLT32, symbol, [-4]))
    return made.bytes()


# Code.


def nops():
    """16 MB of one-byte instructions, of one function"""
    return one_function(NOP * (TEXT_BYTES - 1) + RET)[0].bytes()


def pushes():
    """16 MB of pushes and pops of one byte, each of which changes the depth"""
    return one_function(b"\x53\x5b" * (TEXT_BYTES // 2 - 1) + NOP + RET)[0].bytes()


def deep():
    """16 MB of pushes, whose depths grow, and which warn from where an offset doesn't fit"""
    return one_function(b"\x53" * (TEXT_BYTES - 2) + b"\xeb\xfe")[0].bytes()


def chain():
    """8,000,000 short jumps, each to the one before it"""
    count = (TEXT_BYTES - 8) // 2
    code = jump(0, 6 + 2 * (count - 1)) + RET + b"\xeb\xfd" + b"\xeb\xfc" * (count - 1)
    return one_function(code)[0].bytes()


def scattered():
    """3,300,000 jumps, each to another one anywhere"""
    count = TEXT_BYTES // 5 - 1
    order = list(range(1, count))
    random.Random(1).shuffle(order)
    places = array("i", bytes(4 * count))
    here = 0
    for there in order:
        places[here] = there
        here = there
    places[here] = count
    return one_function(b"".join(jump(5 * k, 5 * to) for k, to in enumerate(places)) + RET)[0].bytes()


def join():
    """2,800,000 branches to one return"""
    count = TEXT_BYTES // 6 - 1
    end = 6 * count
    return one_function(b"".join(branch(6 * k, end) for k in range(count)) + RET)[0].bytes()


def mismatches():
    """2,000,000 branches to one place, with as many depths, each of which warns"""
    count = TEXT_BYTES // 8 - 1
    end = 7 * count
    code = b"".join(b"\x53" + branch(7 * k + 1, end) for k in range(count)) + b"\xeb\xfe"
    return one_function(code)[0].bytes()


def bad_targets():
    """8,000,000 branches into the middle of an instruction, each of which warns"""
    return one_function(b"\x74\xff" * (TEXT_BYTES // 2 - 1) + RET)[0].bytes()


def unowned():
    """16 MB of code of no function, and so unreached"""
    made = Object()
    made.text(NOP * (TEXT_BYTES - 1) + RET)
    return made.bytes()


def calls():
    """3,300,000 calls of one function"""
    count = TEXT_BYTES // 5 - 1
    code = RET + b"".join(call(1 + 5 * k, 0) for k in range(count)) + RET
    made = Object()
    text = made.text(code)
    made.function(text, 0, 1, b"called")
    made.function(text, 1, len(code) - 1)
    return made.bytes()


def relocated_calls():
    """2,000,000 calls by relocations, in no order"""
    count = scaled(2_000_000)
    made, text, _ = one_function(b"\xe8\0\0\0\0" * count + RET)
    symbol = made.outside(b"outside")
    offsets = [5 * k + 1 for k in range(count)]
    random.Random(2).shuffle(offsets)
    made.relocate(text, rela(offsets, R_PLT32, symbol, [-4] * count))
    return made.bytes()


# Functions.


def call_chain():
    """2,000,000 functions, each of which calls the next one"""
    made, count = Object(), scaled(2_000_000)
    text = made.text(b"\xe8\x01\0\0\0\xc3" * count + RET)
    made.strings += b"f\0"
    for k in range(count):
        made.local(1, text, 6 * k, 6)
    made.local(1, text, 6 * count, 1)
    return made.bytes()


def jump_chain():
    """2,000,000 functions, each of which jumps to the one before it"""
    made, count = Object(), scaled(2_000_000)
    text = made.text(RET + b"".join(b"\xeb\xfd" if k == 0 else b"\xeb\xfc" for k in range(count)))
    made.strings += b"f\0"
    made.local(1, text, 0, 1)
    for k in range(count):
        made.local(1, text, 1 + 2 * k, 2)
    return made.bytes()


def one_name():
    """2,600,000 functions of one name"""
    made, count = Object(), scaled(2_600_000)
    text = made.text(RET * count)
    made.strings += b"f\0"
    for k in range(count):
        made.local(1, text, k, 1)
    return made.bytes()


def cold_names():
    """2,600,000 parts of one name"""
    made, count = Object(), scaled(2_600_000)
    text = made.text(RET * count)
    made.strings += b"f\0f.cold\0"
    made.local(1, text, 0, 1)
    for k in range(1, count):
        made.local(3, text, k, 1)
    return made.bytes()


def parts():
    """500,000 parts of one function, P.cold.1 to P.cold.500000"""
    made, count = Object(), scaled(500_000)
    text = made.text(RET * (count + 1))
    made.function(text, 0, 1, b"P")
    for k in range(1, count + 1):
        made.function(text, k, 1, b"P.cold.%d" % k)
    return made.bytes()


def nested_parts():
    """Functions of which each is a part of the one before it: f, f.cold, f.cold.cold and so on, in 20 MB of names"""
    made, count = Object(), scaled(2_800)
    text = made.text(RET * count)
    for k in range(count):
        made.function(text, k, 1, b"f" + b".cold" * k)
    return made.bytes()


def suffixes():
    """1,000,000 parts, each named by most of one text of 30 MB"""
    made, count = Object(), scaled(1_000_000)
    text = made.text(RET * count)
    made.strings += b"x" * scaled(30_000_000) + b".cold\0"
    for k in range(count):
        made.local(1 + k, text, k, 1)
    return made.bytes()


def called_suffixes():
    """500,000 calls of functions of other objects, each named by most of one text of 30 MB"""
    count = scaled(500_000)
    made, text, _ = one_function(b"\xe8\0\0\0\0" * count + RET)
    place, first = len(made.strings), len(made.locals)
    made.strings += b"x" * scaled(30_000_000) + b"\0"
    made.others += [SYMBOL.pack(place + k, GLOBAL, 0, 0, 0, 0) for k in range(count)]
    made.relocate(text, b"".join(RELA.pack(5 * k + 1, (first + k) << 32 | R_PLT32, -4) for k in range(count)))
    return made.bytes()


def digits():
    """1,000,000 functions, each named by .cold. and most of one text of 30 MB of digits"""
    made, count = Object(), scaled(1_000_000)
    text = made.text(RET * count)
    made.strings += b"f.cold." * 1 + b"7" * scaled(30_000_000) + b"\0f\0"
    made.local(len(made.strings) - 2, text, 0, 1)
    for k in range(1, count):
        made.local(1 if k % 2 else 1 + k, text, k, 1)
    return made.bytes()


def overlapping():
    """1,300,000 functions, each within the one before it, and one that holds all code"""
    made, count = Object(), scaled(1_300_000)
    code = NOP * (TEXT_BYTES - 1) + RET
    text = made.text(code)
    made.strings += b"f\0"
    made.local(1, text, 0, len(code))
    for k in range(1, count):
        made.local(1, text, k, count - k if k % 2 else 1)
    return made.bytes()


def without_sizes():
    """2,600,000 functions without a size, each of which warns"""
    made, count = Object(), scaled(2_600_000)
    text = made.text(RET * count)
    made.strings += b"f\0"
    for k in range(count):
        made.local(1, text, k, 0)
    return made.bytes()


# Special sections.


def places(made, section, stride, columns):
    """Relocations of entries of `stride` bytes: each column is an offset in the entry, a symbol and the addends."""
    made.relocate(section, interleaved(*(
        rela(range(at, at + stride * len(addends), stride), R_PC32, symbol, addends) for at, symbol, addends in columns
    )))


def alternatives(made, entries, originals, replacements, length, replaced):
    """Adds entries of .altinstructions, each a symbol and addends; and the two lengths."""
    count = len(entries)
    section = made.section(b".altinstructions", struct.pack("<iiHHBB", 0, 0, 5, 0, length, replaced) * count, ALLOC)
    places(made, section, 14, [(0, originals, entries), (4, replacements[0], replacements[1])])


def long_sites(replaced):
    """60,000 sites of 255 bytes, which share one replacement of so many."""
    count = scaled(60_000)
    made, text, symbol = one_function(NOP * (255 * count) + RET)
    other = made.section_symbol(made.text(NOP * replaced, b".altinstr_replacement"))
    alternatives(made, [255 * k for k in range(count)], symbol, (other, [0] * count), 255, replaced)
    return made.bytes()


def sites():
    """60,000 sites of 255 bytes, which share one replacement of 5 bytes"""
    return long_sites(5)


def long_replacements():
    """60,000 sites of 255 bytes, which share one replacement of 255 bytes, in all 30 million instructions"""
    return long_sites(255)


def own_replacements():
    """32,000 sites of 255 bytes, each with a replacement of its own"""
    count = scaled(32_000)
    made, text, symbol = one_function(NOP * (255 * count) + RET)
    other = made.section_symbol(made.text(NOP * (255 * count), b".altinstr_replacement"))
    starts = [255 * k for k in range(count)]
    alternatives(made, starts, symbol, (other, starts), 255, 255)
    return made.bytes()


def variants():
    """One site with 1,000,000 replacements of one byte"""
    count = scaled(1_000_000)
    made, text, symbol = one_function(NOP * 2 + RET)
    other = made.section_symbol(made.text(NOP * 1, b".altinstr_replacement"))
    alternatives(made, [0] * count, symbol, (other, [0] * count), 2, 1)
    return made.bytes()


def empty_replacements():
    """500,000 sites of 8 bytes, each replaced by nothing twice"""
    count = scaled(500_000)
    made, text, symbol = one_function(NOP * (8 * count) + RET)
    other = made.section_symbol(made.text(NOP, b".altinstr_replacement"))
    alternatives(made, [8 * (k // 2) for k in range(2 * count)], symbol, (other, [0] * (2 * count)), 8, 0)
    return made.bytes()


def shared_replacement():
    """900,000 sites of 16 bytes, which share one replacement with a call, at which a million relocations stand"""
    count, extra = scaled(600_000), scaled(600_000)
    made, text, symbol = one_function(NOP * (16 * count) + RET)
    other = made.text(b"\xe8\0\0\0\0" + NOP * 11, b".altinstr_replacement")
    alternatives(made, [16 * k for k in range(count)], symbol, (made.section_symbol(other), [0] * count), 16, 16)
    made.relocate(other, rela([1] * extra, R_NONE, 0, [0] * extra))
    return made.bytes()


def long_variants():
    """One site of 255 bytes with 1,000,000 replacements of 255 bytes each, in all 255 million points"""
    count = scaled(1_000_000)
    made, text, symbol = one_function(NOP * 255 + RET)
    other = made.section_symbol(made.text(NOP * 255, b".altinstr_replacement"))
    alternatives(made, [0] * count, symbol, (other, [0] * count), 255, 255)
    return made.bytes()


def arrivals():
    """2,000,000 jumps to a site with 300,000 variants: in all 600,000 million edges"""
    count, jumps = scaled(300_000), scaled(2_000_000)
    code = NOP * 2 + RET + b"".join(branch(3 + 6 * k, 0) for k in range(jumps)) + RET
    made = Object()
    text = made.text(code)
    symbol = made.section_symbol(text)
    made.function(text, 0, len(code))
    other = made.section_symbol(made.text(NOP * 2, b".altinstr_replacement"))
    alternatives(made, [0] * count, symbol, (other, [0] * count), 2, 2)
    return made.bytes()


def hints():
    """1,800,000 hints, one at each instruction"""
    count = scaled(1_800_000)
    made, text, symbol = one_function(NOP * count + RET)
    section = made.section(b".discard.unwind_hints", struct.pack("<IhBBBBBB", 0, 8, 5, 2, 0, 0, 0, 0) * count)
    places(made, section, 12, [(0, symbol, range(count))])
    return made.bytes()


def saves():
    """900,000 saving and 900,000 restoring hints, in turn"""
    count = scaled(900_000)
    made, text, symbol = one_function(NOP * (2 * count + 1) + RET)
    pair = struct.pack("<IhBBBBBB", 0, 0, 0, 6, 0, 0, 0, 0) + struct.pack("<IhBBBBBB", 0, 0, 0, 7, 0, 0, 0, 0)
    section = made.section(b".discard.unwind_hints", pair * count)
    places(made, section, 12, [(0, symbol, range(2 * count))])
    return made.bytes()


def one_save():
    """1,700,000 restoring hints of one saving one"""
    count = scaled(1_700_000)
    made, text, symbol = one_function(NOP * (count + 1) + RET)
    body = struct.pack("<IhBBBBBB", 0, 0, 0, 6, 0, 0, 0, 0) + struct.pack("<IhBBBBBB", 0, 0, 0, 7, 0, 0, 0, 0) * count
    section = made.section(b".discard.unwind_hints", body)
    places(made, section, 12, [(0, symbol, range(count + 1))])
    return made.bytes()


def static_branches():
    """900,000 static branches at one place, to as many places"""
    count = scaled(900_000)
    made, text, symbol = one_function(NOP * (count + 1) + RET)
    section = made.section(b"__jump_table", bytes(16 * count), ALLOC)
    places(made, section, 16, [(0, symbol, [0] * count), (4, symbol, range(1, count + 1))])
    return made.bytes()


def exceptions():
    """1,000,000 exceptions at as many places, with one fixup"""
    count = scaled(1_000_000)
    made, text, symbol = one_function(NOP * count + RET)
    section = made.section(b"__ex_table", bytes(12 * count), ALLOC)
    places(made, section, 12, [(0, symbol, range(count)), (4, symbol, [count] * count)])
    return made.bytes()


def one_exception():
    """1,000,000 exceptions at one place, with one fixup"""
    count = scaled(1_000_000)
    made, text, symbol = one_function(NOP * count + RET)
    section = made.section(b"__ex_table", bytes(12 * count), ALLOC)
    places(made, section, 12, [(0, symbol, [0] * count), (4, symbol, [count] * count)])
    return made.bytes()


def dead_ends():
    """2,000,000 places that are said to be no dead ends"""
    count = scaled(2_000_000)
    made, text, symbol = one_function(UD2 * count + RET)
    section = made.section(b".discard.reachable", bytes(4 * count))
    made.relocate(section, rela(range(0, 4 * count, 4), R_PC32, symbol, range(2, 2 * count + 2, 2)))
    return made.bytes()


def unchecked():
    """900,000 functions that are left unchecked, each in two lists"""
    made, count = Object(), scaled(900_000)
    text = made.text(RET * count)
    symbol = made.section_symbol(text)
    made.strings += b"f\0"
    for k in range(count):
        made.local(1, text, k, 1)
    section = made.section(b".discard.func_stack_frame_non_standard", bytes(4 * count))
    made.relocate(section, rela(range(0, 4 * count, 4), R_PC32, symbol, range(count)))
    return made.bytes()


def same_offset():
    """2,600,000 relocations at the field of one call"""
    count = scaled(2_600_000)
    made, text, symbol = one_function(call(0, 0) + RET)
    made.relocate(text, rela([1] * count, R_NONE, symbol, [0] * count))
    return made.bytes()


# Jump tables.


def tables(count, entries, shared):
    jumps = b"\xff\x24\xc5\0\0\0\0" * count
    made, text, symbol = one_function(jumps + RET)
    size = 8 * entries
    rodata = made.section(b".rodata", bytes(size if shared else size * count), ALLOC)
    table = made.section_symbol(rodata)
    made.relocate(text, rela(range(3, 7 * count, 7), R_32S, table, [0] * count if shared else range(0, size * count, size)))
    total = entries if shared else entries * count
    # Entries lead anywhere; those of one table to all jumps and the return, else the first one to what stands behind its jump.
    places = [k * 7919 if shared else k // entries + 1 + k % entries * 7919 for k in range(total)]
    made.relocate(rodata, rela(range(0, 8 * total, 8), R_64, symbol, [7 * (place % (count + 1)) for place in places]))
    return made.bytes()


def shared_table():
    """1,000 jumps that share a table of 1,000,000 entries, in all a thousand million edges"""
    return tables(scaled(1_000), scaled(1_000_000), True)


def one_table():
    """One jump with a table of 2,000,000 entries"""
    return tables(1, scaled(2_000_000), True)


def many_tables():
    """400,000 jumps, each with a table of two entries"""
    return tables(scaled(400_000), 2, False)


# Other inputs.


def small():
    """A small object"""
    return one_function(b"\x53\x5b" + RET)[0].bytes()


def rows():
    """Not an object to check, but the longest tables: 1,800,000 rows"""
    count = scaled(1_800_000) // 2 * 2
    made, text, symbol = one_function(NOP * count)
    section = made.section(b".orc_unwind", (struct.pack("<hhH", 8, 0, 0x205) + struct.pack("<hhH", 16, 0, 0x205)) * (count // 2), ALLOC)
    places_of = made.section(b".orc_unwind_ip", bytes(4 * count), ALLOC)
    made.relocate(places_of, rela(range(0, 4 * count, 4), R_PC32, symbol, range(count)))
    return made.bytes()


def names_file():
    """Names of functions in 64 MB: 4,700,000 short ones, in no order"""
    lines = bytearray()
    k = 0
    while len(lines) < FILE - 32:
        lines += b"noreturn %x\n" % (k * 2654435761 & 0xFFFFFF)
        k += 1
    return bytes(lines)


def long_name():
    """One name of 64 MB"""
    return b"noreturn " + b"x" * (FILE - 10) + b"\n"


def image():
    """An image of 16 MB: 900,000 pieces of memory, the lowest last"""
    lines = bytearray(b"regs 1000 8000 5\nplace 1 1000\n")
    k = scaled(900_000)
    while k and len(lines) < 16_777_216 // SCALE - 32:
        lines += b"mem %x 00\n" % (0x10000000 + 2 * k)
        k -= 1
    return bytes(lines)


def places_image():
    """An image of 16 MB: the memory of one stack of a million frames"""
    lines = bytearray(b"regs 1 8000 5\nplace 1 0\nmem 8000 ")
    return bytes(lines + b"0200000000000000" * ((16_777_216 // SCALE - 64) // 16)) + b"\n"


CHECK, DUMP = "check OBJECT OUT", "dump OBJECT"
UNWIND, LISTS = "unwind SMALL OBJECT", "check SMALL OUT --names=OBJECT"
CASES = {
    "small": (small, CHECK, "0"),
    "names": (names, CHECK, "0"),
    "text-names": (text_names, f"{CHECK} --no-unreachable", "0"),
    "empty-texts": (empty_texts, CHECK, "0"),
    "small-texts": (small_texts, f"{CHECK} --no-unreachable", "0"),
    "relocated-texts": (relocated_texts, f"{CHECK} --no-unreachable", "0"),
    "nops": (nops, CHECK, "0"),
    "pushes": (pushes, CHECK, "0"),
    "deep": (deep, CHECK, "1"),
    "chain": (chain, CHECK, "0"),
    "scattered": (scattered, CHECK, "0"),
    "join": (join, CHECK, "0"),
    "mismatches": (mismatches, CHECK, "1"),
    "bad-targets": (bad_targets, CHECK, "1"),
    "unowned": (unowned, f"{CHECK} --no-unreachable", "0"),
    "calls": (calls, CHECK, "0"),
    "relocated-calls": (relocated_calls, CHECK, "0"),
    "call-chain": (call_chain, CHECK, "0"),
    "jump-chain": (jump_chain, CHECK, "0"),
    "one-name": (one_name, CHECK, "0"),
    "cold-names": (cold_names, CHECK, "01"),
    "parts": (parts, CHECK, "01"),
    "nested-parts": (nested_parts, CHECK, "01"),
    "suffixes": (suffixes, CHECK, "0"),
    "called-suffixes": (called_suffixes, CHECK, "0"),
    "safe-suffixes": (called_suffixes, f"{CHECK} --uaccess", "0"),
    "digits": (digits, CHECK, "01"),
    "overlapping": (overlapping, CHECK, "01"),
    "without-sizes": (without_sizes, CHECK, "1"),
    "sites": (sites, CHECK, "0"),
    "long-replacements": (long_replacements, CHECK, "0"),
    "own-replacements": (own_replacements, CHECK, "0"),
    "variants": (variants, CHECK, "0"),
    "empty-replacements": (empty_replacements, CHECK, "0"),
    "shared-replacement": (shared_replacement, CHECK, "01"),
    "long-variants": (long_variants, CHECK, "06"),
    "arrivals": (arrivals, CHECK, "06"),
    "hints": (hints, CHECK, "0"),
    "saves": (saves, CHECK, "0"),
    "one-save": (one_save, CHECK, "0"),
    "static-branches": (static_branches, CHECK, "0"),
    "exceptions": (exceptions, CHECK, "0"),
    "one-exception": (one_exception, CHECK, "0"),
    "dead-ends": (dead_ends, CHECK, "0"),
    "unchecked": (unchecked, CHECK, "0"),
    "same-offset": (same_offset, CHECK, "01"),
    "shared-table": (shared_table, CHECK, "0"),
    "one-table": (one_table, CHECK, "0"),
    "many-tables": (many_tables, CHECK, "0"),
    "rows": (rows, DUMP, "0"),
    "names-file": (names_file, LISTS, "0"),
    "long-name": (long_name, LISTS, "0"),
    "image": (image, UNWIND, "0"),
    "places": (places_image, UNWIND, "0"),
}


def main(words):
    if not words:
        for name, (make, command, statuses) in CASES.items():
            print(f"{name}\t{command}\t{statuses}\t{make.__doc__.splitlines()[0]}")
        return
    name, path = words
    with open(path, "wb") as file:
        file.write(CASES[name][0]())


main(sys.argv[1:])
