"""Compares what the program reads of its own output with what other tools read: other_readers.py PROGRAM FOLDER."""

import bisect
import os
import re
import shutil
import subprocess
import sys
from typing import NamedTuple

# How many rows of each object are looked up in the merged table; all of them where there are fewer.
MOST_LOOKUPS = int(os.environ.get("LOOKUPS", "200"))


def run(*words: str) -> tuple[int, list[str], str]:
    """The status, the lines and the complaints of a command."""
    ran = subprocess.run(words, stdout=subprocess.PIPE, stderr=subprocess.PIPE, encoding="utf-8", errors="replace")
    return ran.returncode, ran.stdout.splitlines(), ran.stderr


def need(*words: str) -> list[str]:
    """The lines of a command that has to be done, and to complain of nothing."""
    status, lines, complaints = run(*words)
    if status or complaints:
        raise AssertionError(f"{' '.join(words)}: status {status}: {(complaints.splitlines() or lines or [''])[0]}")
    return lines


class Part(NamedTuple):
    """An object with tables: its rows by section, each at its offset, and the sizes of its text sections by number."""

    path: str
    rows: dict[str, list[tuple[int, str]]]
    sizes: dict[int, tuple[str, int]]


PLACE = re.compile(r"(\S*)\+0x([0-9a-f]+)")


def split_place(line: str) -> tuple[str, int, str]:
    place, text = line.split(": ", 1)
    found = PLACE.fullmatch(place)
    return found[1], int(found[2], 16), text


def relocations(path: str, section: str) -> list[tuple[int, str, str, int]]:
    """Offset, type, symbol and addend of each relocation of a section, as readelf shows them."""
    found, inside = [], False
    for line in need("readelf", "-rW", path):
        if line.startswith("Relocation section"):
            inside = f"'.rela{section}'" in line
        words = line.split()
        if inside and len(words) == 7 and words[2].startswith("R_X86_64"):
            found.append((int(words[0], 16), words[2], words[4], int(words[5] + words[6], 16)))
    return found


def text_sections(path: str) -> dict[int, tuple[str, int]]:
    """The name and the size of each text section with code, by its number."""
    sections = {}
    for line in need("readelf", "-SW", path):
        found = re.match(r"\s*\[\s*(\d+)\]\s+(\S+)\s+PROGBITS\s+\S+\s+\S+\s+([0-9a-f]+)\s+\S+\s+(\S+)", line)
        if found and "X" in found[4]:
            sections[int(found[1])] = (found[2], int(found[3], 16))
    return sections


def readelf_rules(path: str) -> list[str]:
    """The rules of each frame description, in the form of `cfa`: that at the beginning, and each that isn't the one before."""
    sections = [symbol for _, _, symbol, _ in relocations(path, ".eh_frame")]
    lines, columns, last, begin = [], [], None, 0
    number = -1
    for line in need("readelf", "--debug-dump=frames-interp", path):
        words = line.split()
        head = re.search(r"FDE cie=\S+ pc=([0-9a-f]+)\.\.", line)
        if head:
            number, begin, last = number + 1, int(head[1], 16), None
        elif words[:2] == ["LOC", "CFA"]:
            columns = words[2:]
        elif number >= 0 and len(words) == len(columns) + 2 and re.fullmatch(r"[0-9a-f]{16}", words[0]):
            told = dict(zip(columns, words[2:]))
            saved = told.get("rbp", "u")
            where = "same" if saved in "us" else f"cfa{int(saved[1:]):+d}"
            rule = "undefined" if told["ra"] == "u" else f"cfa {words[1]} bp {where}"
            if told["ra"] not in ("u", "c-8"):
                raise AssertionError(f"{path}: the return address is at {told['ra']}")
            if rule != last:
                lines.append(f"{sections[number]}+{int(words[0], 16) - begin:#x}: {rule}")
            last = rule
    return lines


def compare_frames(program: str, path: str) -> int:
    """How many rules readelf and `cfa` tell alike."""
    need(program, "cfi", path, "framed.o", "--all-opcodes")
    own, theirs = need(program, "cfa", "framed.o"), readelf_rules("framed.o")
    need("objdump", "--dwarf=frames", "framed.o")
    if own != theirs:
        at = next((i for i, (one, other) in enumerate(zip(own, theirs)) if one != other), min(len(own), len(theirs)))
        raise AssertionError(f"{path}: cfa has {own[at : at + 1]}, and readelf {theirs[at : at + 1]}")
    return len(own)


def thunk_sites(path: str) -> dict[str, int]:
    """How many relocations of text name the thunks, by what their lists are called."""
    counts = {"retpoline": 0, "return": 0}
    for section in {name for name, _ in text_sections(path).values()}:
        for _, _, symbol, _ in relocations(path, section):
            counts["retpoline"] += symbol.startswith("__x86_indirect_thunk_")
            counts["return"] += symbol == "__x86_return_thunk"
    return counts


def compare_sites(program: str, path: str) -> dict[str, int]:
    """How many places each list has, where the lists are those that readelf shows and the thunks are those that the code names."""
    need(program, "sites", path, "listed.o", "--all-opcodes")
    own = need(program, "list", "listed.o")
    theirs = [
        f"{kind} {symbol}+{addend:#x}"
        for kind, section in (("retpoline", ".retpoline_sites"), ("return", ".return_sites"), ("call", ".call_sites"))
        for _, _, symbol, addend in relocations("listed.o", section)
    ]
    if own != theirs:
        raise AssertionError(f"{path}: list has {len(own)} places and readelf {len(theirs)}, or others")
    counts = {kind: sum(line.startswith(f"{kind} ") for line in own) for kind in ("retpoline", "return", "call")}
    thunks = thunk_sites(path)
    if any(counts[kind] != thunks[kind] for kind in thunks):
        raise AssertionError(f"{path}: {counts} are listed, and the code names {thunks}")
    return counts


def part_of(program: str, path: str, written: str) -> Part:
    """The object with its tables."""
    need(program, "check", path, written, "--all-opcodes")
    rows: dict[str, list[tuple[int, str]]] = {}
    for line in need(program, "dump", written):
        section, offset, text = split_place(line)
        rows.setdefault(section, []).append((offset, text))
    return Part(written, rows, text_sections(path))


def row_at(rows: list[tuple[int, str]], offset: int) -> str:
    """The row that holds at an offset: the last one at or below it."""
    at = bisect.bisect_right([it[0] for it in rows], offset)
    return rows[at - 1][1] if at else "no row"


def is_same(one: str, other: str) -> bool:
    """No row and an undefined one are the same."""
    is_none = lambda text: text == "no row" or text.startswith("undefined ")
    return one == other or (is_none(one) and is_none(other))


def compare_merged(program: str, parts: list[Part]) -> tuple[int, int]:
    """How many rows the merged table has, and how many addresses were looked up."""
    base, layout, ranges = 0xFFFFFFFF81000000, [], []
    for part in parts:
        layout.append(f"file {part.path}")
        for number, (name, size) in part.sizes.items():
            layout.append(f"place {number} {base:x}")
            ranges.append((base, size, part.rows.get(name, [])))
            base += size
    with open("layout", "w", encoding="utf-8") as file:
        print(*layout, sep="\n", file=file)
    need(program, "merge", "layout", "merged")
    looked_up = 0
    for base, size, rows in ranges:
        offsets = [offset + step for offset, _ in rows for step in (-1, 0, 1)]
        step = max(len(offsets) // (3 * MOST_LOOKUPS), 1)
        for offset in (it for it in offsets[::step] if 0 <= it < size):
            (line,) = need(program, "find", "merged", f"{base + offset:x}")
            there = line.split(": ", 1)[-1]
            if not is_same(there, row_at(rows, offset)):
                raise AssertionError(f"find {base + offset:#x} is {there}, and the object's row {row_at(rows, offset)}")
            looked_up += 1
    return sum(len(rows) for part in parts for rows in part.rows.values()), looked_up


def names_are_different(sizes: dict[int, tuple[str, int]]) -> bool:
    """Whether each text section can be told by its name."""
    return len({name for name, _ in sizes.values()}) == len(sizes)


def without_frames(path: str, to: str) -> None:
    """The object without call frame information, as it is where it has none."""
    if any(".eh_frame" in line for line in need("readelf", "-SW", path)):
        need("objcopy", "--remove-section=.eh_frame", "--remove-section=.rela.eh_frame", path, to)
    else:
        shutil.copyfile(path, to)


def main(program: str, folder: str) -> int:
    parts, rules, sites, listed, faults = [], 0, {"retpoline": 0, "return": 0, "call": 0}, 0, []
    for name in sorted(os.listdir(folder)):
        if not name.endswith(".o"):
            continue
        without_frames(f"{folder}/{name}", "in.o")
        status, lines, _ = run(program, "sites", "in.o", "listed.o", "--all-opcodes")
        if status == 0 and names_are_different(text_sections("in.o")):
            try:
                found = compare_sites(program, "in.o")
                sites = {kind: sites[kind] + found[kind] for kind in sites}
                listed += 1
            except AssertionError as fault:
                faults.append(f"{name}: {fault}")
        if run(program, "check", "in.o", "checked.o", "--all-opcodes")[0] or not names_are_different(text_sections("in.o")):
            continue
        try:
            rules += compare_frames(program, "in.o")
            parts.append(part_of(program, "in.o", f"tables{len(parts)}.o"))
        except AssertionError as fault:
            faults.append(f"{name}: {fault}")
    try:
        rows, looked_up = compare_merged(program, parts)
    except AssertionError as fault:
        faults.append(str(fault))
    for fault in faults:
        print(f"other readers: {fault}")
    if faults or not parts:
        print(f"other readers: FAILED, {len(parts)} objects accepted")
        return 1
    told = ", ".join(f"{count} {kind} sites" for kind, count in sites.items())
    print(f"other readers: {len(parts)} objects accepted; readelf tells the same {rules} frame rules; {told} of {listed} objects; {looked_up} addresses looked up in a table of {rows} rows")
    return 0


if __name__ == "__main__":
    sys.exit(main(*sys.argv[1:]))
