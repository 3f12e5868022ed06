#!/usr/bin/env bash
# Compares the tables by which lengths are guessed (crates/x86_text/src/guess.rt) with the opcode maps (crates/x86_map/src): of each form of
# an opcode of one byte or behind 0F whether ModRM follows, and how many bytes the immediate has where neither 0x66 nor REX.W changes it;
# which bytes are prefixes; and how many bytes ModRM has with SIB and displacement. Ends with status 1 where something is different.
set -eu
. "$(dirname "$0")/../lib/prepare.sh"
needs "guessed lengths" python3
python3 - "$root/crates" <<'END'
import re, sys

IMMEDIATES = {"no_imm": 0, "Ib": 1, "Jb": 1, "Iw": 2, "IwIb": 3, "Iz": 4, "Jz": 4, "Iv": 4, "Moffs": 8}
PREFIXES = {0x26, 0x2E, 0x36, 0x3E, *range(0x40, 0x50), 0x64, 0x65, 0x66, 0x67, 0xF0, 0xF2, 0xF3}
FORM = r"\b(none|[EMR]|bytes)(?:\[(\w+)\.\.=(\w+)\])?, (\w+), \w+, \w+\)"
failed = 0


def source(name):
    with open(f"{sys.argv[1]}/{name}.rt", encoding="utf-8") as file:
        return re.sub(" *//.*", "", file.read())


def compare(what, guessed, right):
    global failed
    if guessed != right:
        failed = 1
        print(f"guessed-lengths: {what}: {guessed} is guessed, and {right} is right")


guess = source("x86_text/src/guess")
entries = {name: re.findall(r"\w+", it) for name, it in re.findall(r"static (\w+): \[\w+; 256\] = \[(.*?)\];", guess, re.S)}
tails = {"": {}}
for name, fields, base in re.findall(r"const (\w+): Tail = Tail \{(.*?)(?:\.\.(\w+)\s*)?\};", guess, re.S):
    tails[name] = {**tails[base], **dict(re.findall(r"(\w+): (\w+)", fields))}
for table in ("one_byte", "two_byte"):
    groups = dict(re.findall(r"const (\w+): &\[Form\] = (.*?);", source(f"x86_map/src/{table}_groups"), re.S))
    rows = re.search(r"256\] = \[\n(.*?),\n\];", source(f"x86_map/src/{table}"), re.S)[1].split(",\n")
    rows = [groups.get(row.strip(), row) for row in rows]
    for first, last, row in re.findall(r"row!\((\w+)(?:\.\.=(\w+))?(, .*\))", source(f"x86_map/src/{table}_extension")):
        for opcode in range(int(first, 0), int(last or first, 0) + 1):
            rows[opcode] += row
    count = 0
    for opcode, (row, entry) in enumerate(zip(rows, entries[table.upper()], strict=True)):
        forms, tail = re.findall(FORM, row), tails[entry]
        assert forms or row.strip() == "&[]"
        compare(f"{table} {opcode:02X}, a prefix", tail["is_prefix"] == "true", table == "one_byte" and opcode in PREFIXES)
        for operand, first, last, immediate in forms:
            fields = range(int(first or "0", 0), int(last or "7", 0) + 1)
            for reg in {field // 8 % 8 if operand == "bytes" else field for field in fields}:
                guessed = int(tail["len"]) - 1 + int(tail["test"]) * (reg < 2)
                compare(f"{table} {opcode:02X} /{reg}, ModRM and immediate", (tail["modrm"] == "0xFF", guessed), (operand != "none", IMMEDIATES[immediate]))
        count += len(forms)
    print(f"guessed-lengths: {table}: 256 entries and {count} forms of the opcode maps compared")
for modrm, long in enumerate(entries["OPERAND"]):
    mod, rm = modrm // 64, modrm % 8
    compare(f"ModRM {modrm:02X}", int(long), 1 if mod == 3 else 1 + (rm == 4) + (4 * (rm == 5), 1, 4)[mod])
sys.exit(failed)
END
