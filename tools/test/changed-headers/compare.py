"""Every change of one byte of an object's headers: compare.py PROGRAM OBJECT

OBJECT is the text of an object without ORC tables, so that `dump` says that these aren't there where it is well-formed."""

import multiprocessing
import os
import sys
import tempfile
from pathlib import Path

tools = Path(__file__).parents[2]
sys.path[1:1] = [str(tools / "model"), str(tools / "test/commands")]

from elf import parse
from object_text import read_object
from texts import Refused

PROGRAM, OBJECT = sys.argv[1], read_object(Path(sys.argv[2]).read_text())
FILE_HEADER, SECTION_HEADER = 64, 64


def expected(data: bytes) -> bytes:
    """What `dump` prints by the model."""
    try:
        parse(data)
    except Refused as refused:
        return f"refused: {refused}\n".encode()
    return b"refused: no section .orc_unwind\n"


def answer(path: str, out) -> tuple[int, bytes]:
    """The status of `dump`, and what it prints."""
    out.seek(0)
    out.truncate()
    files = [(os.POSIX_SPAWN_DUP2, out.fileno(), 1), (os.POSIX_SPAWN_OPEN, 2, os.devnull, os.O_WRONLY, 0)]
    _, status = os.waitpid(os.posix_spawn(PROGRAM, [PROGRAM, "dump", path], {}, file_actions=files), 0)
    out.seek(0)
    return os.waitstatus_to_exitcode(status), out.read()


def differences(at: int) -> list[str]:
    """What is different where the byte at an offset has each other value."""
    found = []
    with tempfile.NamedTemporaryFile() as file, tempfile.TemporaryFile() as out:
        for value in range(256):
            if value != OBJECT[at]:
                changed = OBJECT[:at] + bytes([value]) + OBJECT[at + 1 :]
                file.seek(0)
                file.write(changed)
                file.flush()
                status, told = answer(file.name, out)
                if (status, told) != (2, expected(changed)):
                    found.append(f"byte {at} is {value:02X}: status {status}, {told!r}, not {expected(changed)!r}")
    return found


def main() -> int:
    headers = int.from_bytes(OBJECT[40:48], "little")
    number = int.from_bytes(OBJECT[60:62], "little")
    places = [*range(FILE_HEADER), *range(headers, headers + SECTION_HEADER * number)]
    with multiprocessing.Pool() as pool:
        found = [line for lines in pool.imap(differences, places) for line in lines]
    for line in found:
        print(line)
    print(f"changed headers: {255 * len(places)} objects, {len(found)} answers are different")
    return 1 if found else 0


if __name__ == "__main__":
    sys.exit(main())
