"""Compares what the program told of objects with what `nm -S` and `readelf` tell of them: functions_by_readelf.py SAID.

Prints how many functions and relocations are the same, and every one that isn't.
"""

import collections
import re
import subprocess
import sys

SECTION = re.compile(r"^ *\[ *(\d+)\] (.*?) +[A-Z_0-9]+ +[0-9a-f]{16} ([0-9a-f]+) [0-9a-f]+ [0-9a-f]+ +[A-Zxolpd]* +\d+ +(\d+)")
RELOCS = re.compile(r"^Relocation section '.*' at offset 0x([0-9a-f]+) contains")
RELOC = re.compile(r"^([0-9a-f]{16}) +([0-9a-f]{16}) \S+(?: +([0-9a-f]{16}) +(?:.* )?([+-]) ([0-9a-f]+)$| +(-?[0-9a-f]+)$)?")
SYMBOL = re.compile(r"^ *(\d+): [0-9a-f]{16} +\S+ \S+ +\S+ +\S+ +(\S+)")


def run(*command):
    return subprocess.run(command, capture_output=True, text=True, check=True, errors="replace").stdout.splitlines()


def sections(path):
    """The name of each section, and the section that the relocations at an offset of the file change."""
    names, changed = {0: ""}, {}
    for line in run("readelf", "-SW", path):
        if found := SECTION.match(line):
            number, name, offset, info = found.groups()
            names[int(number)] = name
            changed[int(offset, 16)] = int(info)
    return names, changed


def functions(path):
    """The greatest size of the functions of text that start at each place, by `nm -S`."""
    sizes = {}
    for line in run("nm", "-S", "-f", "sysv", path):
        fields = [field.strip() for field in line.split("|")]
        if len(fields) == 7 and fields[2] in "tTwW" and fields[3] == "FUNC" and fields[4] and fields[6] != "*UND*":
            key = fields[6], int(fields[1], 16)
            sizes[key] = max(sizes.get(key, 0), int(fields[4], 16))
    return {key: size for key, size in sizes.items() if size > 0}


def relocations(path, changed):
    """Each relocation: the section and offset of its field, its type, symbol and addend, and the place that it names."""
    homes = {}
    for line in run("readelf", "-sW", path):
        if found := SYMBOL.match(line):
            homes[int(found[1])] = found[2]
    listed, sec = [], 0
    for line in run("readelf", "-rW", path):
        if found := RELOCS.match(line):
            sec = changed[int(found[1], 16)]
        elif found := RELOC.match(line):
            offset, info, value, sign, far, alone = found.groups()
            addend = int(far, 16) * (-1 if sign == "-" else 1) if far else int(alone or "0", 16)
            symbol, kind = int(info, 16) >> 32, int(info, 16) & 0xFFFFFFFF
            place, home = int(value or "0", 16) + addend, homes[symbol]
            named = (int(home), place) if home.isdigit() and 0 <= place < 1 << 64 else ()
            listed.append((sec, int(offset, 16), kind, symbol, addend, *named))
    return sorted(listed)


def main(said):
    objects = {}
    for line in open(said, encoding="utf-8"):
        word, *rest = line.split(" ", 1)
        if word == "object":
            told = objects[rest[0].strip()] = {"function": [], "reloc": [], "refused": []}
        else:
            told[word].append(rest[0].strip())
    same = [0, 0, 0]
    for path, told in objects.items():
        if told["refused"]:
            print(f"{path}: refused: {told['refused'][0]}")
            continue
        names, changed = sections(path)
        read = {}
        for line in told["function"]:
            sec, off, size = map(int, line.split())
            key = names[sec], off
            read[key] = max(read.get(key, 0), size)
        wanted = functions(path)
        if read != wanted:
            sys.exit(f"functions: {path}: nm and symbols_relocs differ: {sorted(set(wanted.items()) ^ set(read.items()))[:5]}")
        found = sorted(tuple(map(int, line.split())) for line in told["reloc"])
        listed = relocations(path, changed)
        at = collections.Counter(row[:2] for row in listed)
        if found != [row for row in listed for _ in range(at[row[:2]])]:
            sys.exit(f"functions: {path}: readelf and symbols_relocs differ: {sorted(set(listed) ^ set(found))[:5]}")
        same = [same[0] + 1, same[1] + len(wanted), same[2] + len(listed)]
    print(f"functions: {same[0]} of {len(objects)} objects have the {same[1]} functions of nm -S and the {same[2]} relocations of readelf -r")


main(sys.argv[1])
