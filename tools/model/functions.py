"""Functions, their parts and owners, and the targets of branches and calls by their relocations, as in docs/FORMATS.md."""

import re
from bisect import bisect_right
from typing import NamedTuple, Optional

from elf import FUNC, R_PC32, R_PLT32, UNDEFINED, WEAK, Object, Place
from opcodes import Insn
from texts import Refused

# What a compiler moved out of a function P, which it calls P.cold, or P.cold.1 and so on. A function that has both names is no part.
PART = re.compile(rb"(.*)\.cold(\.[0-9]+)?", re.DOTALL)


class Function(NamedTuple):
    start: Place
    size: int
    # Its lowest symbol, which has its name.
    sym: int
    # The function that it is a part of, by its place in the list.
    parent: Optional[int]


class Target(NamedTuple):
    """What a branch or call names, by its relocation or distance alone.

    inside: a place; either: a place, or what replaces the weak symbol; outside: an undefined symbol; indirect: a thunk that jumps
    to a register; return: the thunk that returns; bad: none of these.
    """

    kind: str
    place: Optional[Place] = None
    sym: Optional[int] = None


BAD = Target("bad")


class Functions:
    """The functions of an object's text sections, by their starts."""

    def __init__(self, object: Object):
        self.object = object
        by_start: dict[Place, list[int]] = {}
        for number, symbol in enumerate(object.symbols):
            if symbol.kind != FUNC or not object.is_text(symbol.home):
                continue
            size = object.sections[symbol.home].size
            if symbol.value >= size or symbol.value + symbol.size > size:
                raise Refused(f"symbol {number}: bad function")
            if symbol.size > 0:
                by_start.setdefault(Place(symbol.home, symbol.value), []).append(number)
        self.starts = starts = sorted(by_start)
        self.at_start: dict[Place, int] = {start: i for i, start in enumerate(starts)}
        named = {}
        for start in starts:
            for number in by_start[start]:
                name = object.symbols[number].name
                named[name] = min(named.get(name, (number, start)), (number, start))
        # What `at` told so far.
        self._at: dict[Place, Optional[int]] = {}
        self.list: list[Function] = []
        for start in starts:
            numbers = by_start[start]
            part = PART.fullmatch(object.symbols[numbers[0]].name)
            parent = named.get(part[1]) if part else None
            if parent and parent[1] == start:
                parent = None
            size = max(object.symbols[number].size for number in numbers)
            self.list.append(Function(start, size, numbers[0], self.at_start[parent[1]] if parent else None))

    def name(self, function: int) -> bytes:
        return self.object.symbols[self.list[function].sym].name

    def at(self, place: Place) -> Optional[int]:
        """The function that holds the place; of several the one with the greatest start."""
        if place not in self._at:
            self._at[place] = self._holding(place)
        return self._at[place]

    def _holding(self, place: Place) -> Optional[int]:
        for i in reversed(range(bisect_right(self.starts, place))):
            function = self.list[i]
            if function.start.sec != place.sec:
                break
            if place.off < function.start.off + function.size:
                return i
        return None

    def owner_of(self, function: int) -> int:
        """The function whose code this is: the one that it is a part of, or itself."""
        parent = self.list[function].parent
        return function if parent is None else parent

    def owner_at(self, place: Place) -> Optional[int]:
        function = self.at(place)
        return None if function is None else self.owner_of(function)

    def is_part(self, function: int) -> bool:
        return self.list[function].parent is not None

    def branch_target(self, place: Place, insn: Insn) -> Target:
        """What the branch or call at the place names. Whether an instruction begins there isn't asked here."""
        end = place.off + insn.length
        if not insn.wide:
            return BAD if self.object.relocs_at(Place(place.sec, end - 1)) else self.inside(place.sec, end + insn.value)
        relocs = self.object.relocs_at(Place(place.sec, end - 4))
        if not relocs:
            return self.inside(place.sec, end + insn.value)
        reloc = relocs[0]
        symbol = self.object.symbols[reloc.sym]
        if reloc.kind not in (R_PC32, R_PLT32):
            return BAD
        if symbol.name.startswith(b"__x86_indirect_thunk_"):
            return Target("indirect")
        if symbol.name == b"__x86_return_thunk":
            return Target("return")
        if symbol.home == UNDEFINED:
            return Target("outside", None, reloc.sym)
        weak = reloc.sym if symbol.bind == WEAK else None
        return self.inside(symbol.home, symbol.value + reloc.addend + 4, weak)

    def inside(self, sec, off: int, weak: Optional[int] = None) -> Target:
        if not self.object.is_text(sec) or not 0 <= off < self.object.sections[sec].size:
            return BAD
        return Target("inside" if weak is None else "either", Place(sec, off), weak)
