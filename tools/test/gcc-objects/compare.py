"""Compares the rows of `dump` with gcc's own frames, at each address of each function.

compare.py NAME..: for each object NAME.rows and NAME.bytes are what `dump` and `readelf -x .orc_unwind -rW` print of it with tables;
NAME.frames, NAME.relocs and NAME.symbols what `readelf --debug-dump=frames-interp`, `readelf -rW` and `readelf -sW` print of it.
At each address the top of the frame has to be the same register with the same offset, and rbp has to be saved in the same place below
it, or in none, as both say; and the rows of `dump` have to be those that the bytes hold. Prints how much was compared, or the first
difference of each object, with status 1.
"""
import re
import struct
import sys

REGISTERS = {0: "undef", 1: "prev", 4: "bp", 5: "sp"}
KINDS = ["undefined", "end", "call", "regs", "partial"]


def lines_of(path):
    with open(path, encoding="utf-8", errors="replace") as file:
        return file.read().splitlines()


def rows_of(path):
    """For each section its rows: offset, frame's top, and where rbp is saved."""
    rows = {}
    for line in lines_of(path):
        found = re.fullmatch(r"(\S+)\+0x([0-9a-f]+): (\w+) cfa (\S+?)([-+]\d+) bp (\S+?)([-+]\d+)(?: signal)?", line)
        section, offset, kind, base, top, where, slot = found.groups()
        saved = "u" if where == "undef" else f"c{slot}" if where == "prev" else f"{where}{slot}"
        row = (f"r{base}{top}", saved) if kind == "call" else (kind, "")
        rows.setdefault(section, []).append((int(offset, 16), row))
    return rows


def held_by(path):
    """The rows that the bytes of the sections hold, in the form of `dump`."""
    places, body, inside = [], "", None
    for line in lines_of(path):
        found = re.match(r"(?:Relocation section|Hex dump of section) '(\S+)'", line)
        inside = found[1] if found else inside
        words = line.split()
        if inside == ".rela.orc_unwind_ip" and len(words) == 7 and words[2] == "R_X86_64_PC32":
            places.append(f"{words[4]}+0x{words[6]}")
        elif inside == ".orc_unwind" and line.startswith("  0x"):
            body += "".join(line[13:48].split())
    rows = []
    for top, slot, registers, about in struct.iter_unpack("<hhBB", bytes.fromhex(body)):
        signal = " signal" if about >> 3 else ""
        rows.append(f"{KINDS[about & 7]} cfa {REGISTERS[registers & 15]}{top:+d} bp {REGISTERS[registers >> 4]}{slot:+d}{signal}")
    return [f"{place}: {row}" for place, row in zip(places, rows, strict=True)]


def starts_of(path):
    """The section and the offset at which each frame description begins, by the place of the word that tells it."""
    starts, inside = {}, False
    for line in lines_of(path):
        if line.startswith("Relocation section"):
            inside = "'.rela.eh_frame'" in line
        words = line.split()
        if inside and len(words) == 7 and words[2] == "R_X86_64_PC32":
            sign = -1 if words[5] == "-" else 1
            starts[int(words[0], 16)] = (words[4], int(words[3], 16) + sign * int(words[6], 16))
    return starts


def frames_of(path, starts):
    """Each frame description: section, first offset, offset behind the last, and its rows as those of rows_of."""
    entries, columns = [], []
    for line in lines_of(path):
        words = line.split()
        head = re.match(r"([0-9a-f]{8}) \S+ \S+ (?:CIE|FDE cie=([0-9a-f]+) pc=([0-9a-f]+)\.\.([0-9a-f]+))", line)
        if head:
            entries.append(([None if it is None else int(it, 16) for it in head.groups()], []))
        elif words[:2] == ["LOC", "CFA"]:
            columns = words[2:]
        elif len(words) == len(columns) + 2 and re.fullmatch(r"[0-9a-f]{16}", words[0]):
            saved = dict(zip(columns, words[2:])).get("rbp", "u")
            entries[-1][1].append((int(words[0], 16), (words[1], saved)))
    shared = {place: rows for (place, of, _, _), rows in entries if of is None}
    frames = []
    for (place, of, begin, end), rows in entries:
        if of is not None:
            section, first = starts[place + 8]
            # One that moves nothing has no row but that which several share.
            rows = [(offset - begin, row) for offset, row in rows] or shared[of]
            frames.append((section, first, first + end - begin, [(first + offset, row) for offset, row in rows]))
    return frames


def functions_of(path):
    """How many functions with a size there are."""
    return sum(len(it) == 8 and it[3] == "FUNC" and it[2] != "0" for it in map(str.split, lines_of(path)))


def at(rows, offset):
    """What is told of an offset: the last row at or below it."""
    told = [row for begin, row in rows if begin <= offset]
    return told[-1] if told else ("no row", "")


def compare(name):
    """How many addresses were compared, and of how many rows of `dump` and of gcc; or the first difference."""
    if lines_of(f"{name}.rows") != held_by(f"{name}.bytes"):
        return "readelf shows other rows than `dump`"
    rows = rows_of(f"{name}.rows")
    frames = frames_of(f"{name}.frames", starts_of(f"{name}.relocs"))
    places = ours = known = 0
    for section, first, end, told in frames:
        own = rows.get(section, [])
        for offset in range(first, end):
            here, theirs = at(own, offset), at(told, offset)
            if here != theirs:
                return f"{section}+{offset:#x}: the row is {' '.join(here).strip()}, and gcc has {' '.join(theirs)}"
        places += end - first
        ours += sum(first <= it[0] < end for it in own)
        known += len(told)
    if len(frames) != functions_of(f"{name}.symbols"):
        return f"{len(frames)} frame descriptions, and {functions_of(f'{name}.symbols')} functions"
    return places, ours, known


def main():
    found = {name: compare(name) for name in sys.argv[1:]}
    for name, it in found.items():
        if isinstance(it, str):
            print(f"gcc objects: {name}: {it}")
    if any(isinstance(it, str) for it in found.values()):
        sys.exit(1)
    places, ours, known = map(sum, zip(*found.values()))
    print(f"gcc objects: {len(found)} objects accepted; {ours} rows tell what {known} of gcc do, at each of {places} addresses")


main()
