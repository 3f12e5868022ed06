"""Compares the rows of modules by `dump` with those by Linux's `--dump=orc`: kernel_modules.py PROGRAM LINUX FOLDER."""

import lzma
import subprocess
import sys
from pathlib import Path

from linux_rows import by_linux, count, dumped


def lines_of(*words: str) -> tuple[int, list[str]]:
    ran = subprocess.run(words, stdout=subprocess.PIPE, stderr=subprocess.DEVNULL, encoding="utf-8", errors="replace")
    return ran.returncode, ran.stdout.splitlines()


def main(program: str, linux: str, folder: str) -> int:
    same = rows = different = refused = 0
    for path in sorted(it for pattern in ("*.ko", "*.ko.xz") for it in Path(folder).rglob(pattern)):
        module = Path("module.ko")
        module.write_bytes(lzma.decompress(path.read_bytes()) if path.suffix == ".xz" else path.read_bytes())
        status, lines = lines_of(program, "dump", str(module))
        if status and lines[:1] == ["refused: no section .orc_unwind"]:
            continue
        if status:
            refused += 1
            print(f"{path.name}: status {status}: {lines[:1]}")
            continue
        here, there = dumped(lines), by_linux(lines_of(linux, "--dump=orc", str(module))[1])
        if here == there and list(here) == list(there):
            same, rows = same + 1, rows + count(here)
        else:
            different += 1
            first = next((f"{section}+{offset:#x}" for section in here for offset, row in here[section] if (offset, row) not in there.get(section, [])), "")
            print(f"{path.name}: {count(here)} rows, and {count(there)} by Linux; first that is different: {first}")
    print(f"kernel modules: {same} with the same rows, {rows} rows; {different} different, {refused} refused")
    return 0 if same and not different and not refused else 1


if __name__ == "__main__":
    sys.exit(main(*sys.argv[1:]))
