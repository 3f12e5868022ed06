"""Whose code is where, by the symbols that readelf tells."""

import bisect
import re
from typing import Optional

from binutils import Binary, Place

PART = re.compile(r"^(.*)\.cold(?:\.[0-9]+)?$", re.DOTALL)


class Functions:
    """The functions with a size, by their starts: each is told by the lowest number of its symbols."""

    def __init__(self, binary: Binary):
        self.binary = binary
        self.at_start: dict[Place, int] = {}
        self.sizes: dict[Place, int] = {}
        self.named: dict[str, int] = {}
        for number, symbol in sorted(binary.symbols.items()):
            place = symbol.place
            if symbol.kind == "FUNC" and symbol.size > 0 and place is not None and binary.sections[place.sec].is_text:
                function = self.at_start.setdefault(place, number)
                self.sizes[place] = max(self.sizes.get(place, 0), symbol.size)
                self.named.setdefault(symbol.name, function)
        self.starts = sorted(self.at_start)
        self.unchecked_owners = set()
        for place in binary.listed(".discard.func_stack_frame_non_standard"):
            if place in self.at_start:
                self.unchecked_owners.add(self.owner_of(self.at_start[place]))

    def parent_of(self, function: int) -> Optional[int]:
        part = PART.match(self.binary.symbols[function].name)
        return self.named.get(part[1]) if part else None

    def owner_of(self, function: int) -> int:
        parent = self.parent_of(function)
        return function if parent is None else parent

    def owner_at(self, place: Place) -> Optional[int]:
        """The owner of the last function that starts at a place or before it and reaches it."""
        for start in reversed(self.starts[: bisect.bisect_right(self.starts, place)]):
            if start.sec != place.sec:
                return None
            if place.off < start.off + self.sizes[start]:
                return self.owner_of(self.at_start[start])
        return None

    def unchecked_start(self, place: Place) -> Optional[int]:
        """The unchecked function that starts there."""
        function = self.at_start.get(place)
        return function if function is not None and self.owner_of(function) in self.unchecked_owners else None

    def is_entry(self, place: Place) -> bool:
        """Whether a checked function starts there that is no part."""
        function = self.at_start.get(place)
        return function is not None and self.parent_of(function) is None and self.unchecked_start(place) is None
