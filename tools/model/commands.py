"""What every command that reads an object goes through first: the file, the names file, the code."""

from typing import NamedTuple, Optional

import elf
import special
from elf import MOST_SECTIONS, MOST_SYMBOLS, Object, Place
from functions import Functions
from instructions import Code
from labels import spans_named
from names import Names
from points import check_places
from remembered import remembered
from sites import Sites
from special import Special
from texts import Refused

DONE, WARNINGS, REFUSED = 0, 1, 2
LONGEST_FILE = 67_108_864


class Answer(NamedTuple):
    """How a command ends: its status, what it prints, the rows of what it writes, and what it writes."""

    status: int
    lines: list[str]
    rows: list[str] = []
    written: Optional[bytes] = None


def answered(make) -> Answer:
    """What `make` answers, or the line of its refusal."""
    try:
        return make()
    except Refused as refused:
        return Answer(REFUSED, [f"refused: {refused}"])


def refuse_long_files(data: bytes, names_file: Optional[bytes]) -> None:
    for name, there in (("IN", data), ("NAMES", names_file or b"")):
        if len(there) > LONGEST_FILE:
            raise Refused(f"{name} is longer than {LONGEST_FILE} bytes")


class ReadCode(NamedTuple):
    object: Object
    code: Code
    special: Special
    functions: Functions
    sites: Sites


@remembered
def read_code(object: Object, whole: bool, names: Names) -> ReadCode:
    """The object's code, in order up to the lists of places. Raises Refused."""
    code = Code(object, whole)
    entries = special.read(object, spans_named(object, names.loose))
    functions = Functions(object)
    sites = Sites(code, entries)
    check_places(code, entries, functions, sites)
    return ReadCode(object, code, entries, functions, sites)


def refuse_sections(object: Object, names: tuple[bytes, ...], what: str, more: int) -> None:
    """The object has no section of these names so far, and room for so many more."""
    for sec, section in enumerate(object.sections):
        if section.name in names:
            raise Refused(f"section {sec} is {what}")
    if len(object.sections) > MOST_SECTIONS - more:
        raise Refused(f"too many sections: {len(object.sections)}")


def lacking_symbols(object: Object, places: list[Place]) -> list[int]:
    """The sections of these places that have no section symbol, ascending. Raises Refused where there would be too many."""
    secs = sorted({place.sec for place in places if object.section_symbol(place.sec) is None})
    if len(object.symbols) + len(secs) > MOST_SYMBOLS:
        raise Refused(f"too many symbols: {len(object.symbols) + len(secs)}")
    return secs


@remembered
def object_of(data: bytes, names_file: Optional[bytes]) -> tuple[Object, Names]:
    refuse_long_files(data, names_file)
    names = Names(names_file or b"")
    return elf.parse(data), names


def first_named(object: Object, name: bytes) -> Optional[int]:
    """The first section with this name."""
    return next((sec for sec, section in enumerate(object.sections) if section.name == name), None)


def text_of_symbol(object: Object, sym: int) -> Optional[int]:
    """The text section that this symbol stands for: it is the section's first section symbol."""
    home = object.symbols[sym].home
    return home if object.is_text(home) and object.section_symbol(home) == sym else None
