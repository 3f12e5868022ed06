"""Makes objects with ORC tables, and the layout that places them: placed_tables.py FOLDER FILES SECTIONS ROWS.

Each of so many files has so many text sections, which have so many rows together; sections lie one behind the other. Writes FOLDER/layout,
the objects, and FOLDER/addresses, which has the address of each row in hexadecimal digits, in the order of the files.
"""

import random
import sys
from pathlib import Path

sys.path.insert(1, str(Path(__file__).parents[2] / "model"))

import elf
from elf import ALLOC, EXECINSTR, LOCAL, SECTION, Place, Symbol
from elf_make import NewSection, make
from output import with_rows
from rows import ZERO, Row

SIZE = 64


def rows_of(sections: int, count: int, rng: random.Random) -> list[tuple[Place, Row]]:
    """Rows of calls at offsets by lot, and behind each section one of zeros."""
    rows = []
    for sec in range(1, sections + 1):
        own = count // sections + (sec <= count % sections) - 1
        for off in sorted(rng.sample(range(SIZE), own)):
            rows.append((Place(sec, off), Row(8 * rng.randrange(1, 100), 0, 5, 0, 2, False)))
        rows.append((Place(sec, SIZE), ZERO))
    return rows


def main(folder: str, files: str, sections: str, count: str) -> None:
    texts = [NewSection(f".text.{i}".encode(), flags=ALLOC | EXECINSTR, body=b"\x90" * SIZE) for i in range(int(sections))]
    symbols = [Symbol(b"", LOCAL, SECTION, 0, sec, 0, 0) for sec in range(1, int(sections) + 1)]
    bare = elf.parse(make(texts, symbols, []))
    base = 0xFFFF_FFFF_8000_0000
    with open(f"{folder}/layout", "w", encoding="ascii") as layout, open(f"{folder}/addresses", "w", encoding="ascii") as addresses:
        for number in range(int(files)):
            rows = rows_of(int(sections), int(count), random.Random(number))
            with open(f"{folder}/{number}.o", "wb") as file:
                file.write(with_rows(bare, rows))
            # The files lie in another order than that of their names.
            here = base + SIZE * int(sections) * (number * 7 % int(files))
            print(f"file {number}.o", *(f"place {sec} {here + SIZE * (sec - 1):x}" for sec in range(1, int(sections) + 1)), sep="\n", file=layout)
            print(*(f"{here + SIZE * (place.sec - 1) + place.off:016x}" for place, _ in rows), sep="\n", file=addresses)


main(*sys.argv[1:])
