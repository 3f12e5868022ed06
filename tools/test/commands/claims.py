"""What a transcript says in brackets behind a command, and how it stands.

Each claim is told back: in its own words where it holds, else in the words that would have held."""

import re
from pathlib import Path

from elf import parse
from faults import CaseFault
from texts import Refused

# Claims that say how a command is run, and the one on its status.
LIMIT = re.compile(r"limit (\d+)")
STATUS = re.compile(r"status (\d)(?: or (\d))?")


def held(folder: Path, name: str) -> bytes | None:
    """What a file of the folder holds, if it is there."""
    path = folder / name
    return path.read_bytes() if path.is_file() else None


def sections_of(data: bytes | None) -> list:
    """The sections of an object; none where it isn't there or isn't one."""
    try:
        return parse(data).sections if data else []
    except Refused:
        return []


def section_of(data: bytes | None, name: str):
    """The first section of an object with this name."""
    return next((section for section in sections_of(data) if section.name == name.encode()), None)


def spaced(data: bytes) -> str:
    return data.hex(" ").upper()


def size_told(folder, name, _):
    data = held(folder, name)
    return f"{name} isn't there" if data is None else f"{name} has {len(data)} bytes"


def sections_told(folder, name, _):
    sections = sections_of(held(folder, name))
    return f"{name} has {len(sections)} sections" if sections else f"{name} is no object"


def same_told(folder, name, other):
    data, wanted = held(folder, name), held(folder, other)
    if data is None or wanted is None:
        return f"{name if data is None else other} isn't there"
    if data == wanted:
        return f"{name} is {other}"
    at = next((i for i, (a, b) in enumerate(zip(data, wanted)) if a != b), min(len(data), len(wanted)))
    return f"{name} differs from {other} at byte {at}: {spaced(data[at : at + 8])}, not {spaced(wanted[at : at + 8])}"


def bytes_told(folder, name, at, wanted):
    data = held(folder, name)
    if data is None:
        return f"{name} isn't there"
    size = len(bytes.fromhex(wanted))
    return f"{name} has at {at} {spaced(data[int(at) : int(at) + size])}"


def body_told(folder, section, name, wanted):
    found = section_of(held(folder, name), section)
    return f"section {section} of {name} isn't there" if found is None else f"section {section} of {name} is {spaced(found.body)}".rstrip()


def field_told(folder, section, name, field, _):
    found = section_of(held(folder, name), section)
    if found is None or not hasattr(found, field):
        return f"section {section} of {name} isn't there"
    return f"section {section} of {name} has {field} {getattr(found, field)}"


# The claims on files, by their forms.
FORMS = [
    (re.compile(r"(\S+) has (\d+) bytes"), size_told),
    (re.compile(r"(\S+) has (\d+) sections"), sections_told),
    (re.compile(r"section (\S+) of (\S+) is((?: [0-9A-F]{2})*)"), body_told),
    (re.compile(r"section (\S+) of (\S+) has (\w+) (\d+)"), field_told),
    (re.compile(r"(\S+) has at (\d+)((?: [0-9A-F]{2})+)"), bytes_told),
    (re.compile(r"(\S+) is (\S+)"), same_told),
]


def told(claim: str, folder: Path, status: int) -> str:
    """The claim as it stands."""
    if LIMIT.fullmatch(claim):
        return claim
    found = STATUS.fullmatch(claim)
    if found:
        return claim if str(status) in found.groups() else f"status {status}"
    for form, tell in FORMS:
        found = form.fullmatch(claim)
        if found:
            return tell(folder, *found.groups())
    raise CaseFault(f"[{claim}]?")
