"""Files written as bytes: hexadecimal digits, repeated bytes, and changes of another file."""

import re

from faults import CaseFault


def digits(words) -> bytes:
    """The bytes of words of hexadecimal digits."""
    try:
        return bytes.fromhex("".join(words))
    except ValueError:
        raise CaseFault(f"no hexadecimal bytes: {' '.join(words)}") from None


def number(word: str) -> int:
    """A decimal number, or a hexadecimal one behind `0x`."""
    try:
        return int(word, 0)
    except ValueError:
        raise CaseFault(f"no number: {word}") from None


def with_bytes(word: str) -> bytes:
    """A word, in which a backslash and two hexadecimal digits are a byte, as in what the program prints."""
    return re.sub(rb"\\([0-9a-f]{2})", lambda found: bytes.fromhex(found[1].decode()), word.encode())


def plain_lines(text: str) -> list[str]:
    """The lines without comments, and without those that are empty then."""
    lines = (line.split("#")[0].rstrip() for line in text.splitlines())
    return [line for line in lines if line]


def repeated(words: list[str]) -> bytes:
    """`HEX..`, or `HEX.. * N`: the bytes N times."""
    if len(words) > 2 and words[-2] == "*":
        return digits(words[:-2]) * number(words[-1])
    return digits(words)


def change(data: bytearray, at: int, new: bytes) -> None:
    """Puts bytes in the place of others, all of which are there."""
    if at + len(new) > len(data):
        raise CaseFault(f"no {len(new)} bytes at {at}: the file has {len(data)}")
    data[at : at + len(new)] = new


def read_bytes(text: str, file_bytes) -> bytes:
    """The bytes of such a text; `file_bytes` gives those of another input by its name."""
    data = bytearray()
    for line in plain_lines(text):
        words = line.split()
        match words[0]:
            case "from":
                data += file_bytes(words[1])
            case "first":
                del data[number(words[1]) :]
            case "at":
                change(data, number(words[1]), repeated(words[2:]))
            case "flip":
                at, bits = number(words[1]), digits(words[2:])
                change(data, at, bytes(old ^ new for old, new in zip(data[at:], bits)))
            case "text":
                data += line.split(maxsplit=1)[1].encode()
            case _:
                data += repeated(words)
    return bytes(data)
