"""Compares lengths with objdump's over the code of one file: instruction_lengths.py PROGRAM [--all-opcodes] FILE. PROGRAM prints what it decodes
(programs/decoding.rt.txt)."""

import collections
import re
import subprocess
import sys
import tempfile

LINE = re.compile(r"\s*([0-9a-f]+):\t((?:[0-9a-f]{2} )+)\s*(?:\t(.*))?$")
# What objdump prints where it knows no instruction, and prefixes that it prints as one of their own.
UNKNOWN = re.compile(r"\(bad\)|^\.byte|^(?:(?:rex\S*|data16|addr32|[c-gs]s|repn?z|lock)\s*)+$")
PREFIXES = bytes((0x66, 0x67, 0x2E, 0x36, 0x3E, 0x26, 0x64, 0x65, 0xF0, 0xF2, 0xF3, *range(0x40, 0x50)))
WAIT = 0x9B
# What stands before instructions that a hypervisor emulates: with them it is one to x86_decode, and a ud2 and others to objdump.
EMULATED = (b"\x0f\x0bxen", b"\x0f\x0bkvm")


def instructions(path: str):
    """The bytes and the text of each instruction that objdump knows, and the bytes behind it."""
    ran = subprocess.run(["objdump", "-d", "-w", "--insn-width=16", path], capture_output=True, text=True, check=True)
    found = [match.groups() for match in map(LINE.match, ran.stdout.splitlines()) if match]
    listed = [(int(at, 16), bytes.fromhex(code), text or "") for at, code, text in found]
    for number, (at, code, text) in enumerate(listed):
        # WAIT and the instruction of the x87 behind it are printed as one.
        bare = code.lstrip(PREFIXES)
        if UNKNOWN.search(text) or (len(bare) > 1 and bare[0] == WAIT):
            continue
        behind, end = code, at + len(code)
        for next_at, more, _ in listed[number + 1 : number + 16]:
            if next_at != end or len(behind) >= 16:
                break
            behind, end = behind + more, end + len(more)
        if not behind.startswith(EMULATED):
            yield len(code), behind[:16], text


def main(program: str, *words: str) -> int:
    *options, path = words
    known = list(instructions(path))
    with tempfile.NamedTemporaryFile() as file:
        file.write(b"".join(bytes([len(code)]) + code.ljust(16, b"\0") for _, code, _ in known))
        file.flush()
        ran = subprocess.run([program, *options, file.name], capture_output=True, text=True, check=True)
    told = [line for line in ran.stdout.splitlines() if line.startswith("= ")]
    different, refused = 0 if len(told) == len(known) else 1, collections.Counter()
    for (length, code, text), line in zip(known, told):
        word = line.split()[1]
        if not word.isdigit():
            refused[text.split()[0]] += 1
        elif int(word) != length:
            different += 1
            if different <= 20:
                print(f"{code.hex()}: {text}: decoded {line}")
    names = ", ".join(f"{name} {count}" for name, count in refused.most_common(20))
    spellings = len({code[:length] for length, code, _ in known})
    print(f"{path}: {len(known)} instructions, {spellings} different spellings, {different} of another length, {refused.total()} refused: {names or 'none'}")
    return 1 if different else 0


if __name__ == "__main__":
    sys.exit(main(*sys.argv[1:]))
