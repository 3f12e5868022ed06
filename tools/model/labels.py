"""Code by the symbols that stand at it: spans of symbols with listed names, returning names, and holes, which no symbol covers."""

from bisect import bisect_right
from typing import Iterable, Iterator

from elf import FILE, FUNC, NOTYPE, SECTION, Object, Place, Symbol


class Spans:
    """Places from one up to another, by sections."""

    def __init__(self, spans: Iterable[tuple[int, int, int]]):
        by_section: dict[int, list[tuple[int, int]]] = {}
        for sec, start, end in spans:
            if start < end:
                by_section.setdefault(sec, []).append((start, end))
        self.starts: dict[int, list[int]] = {}
        # Behind each start: the greatest end of the spans that start there or before it.
        self.ends: dict[int, list[int]] = {}
        for sec, own in by_section.items():
            own.sort()
            self.starts[sec] = [start for start, _ in own]
            self.ends[sec] = []
            for _, end in own:
                self.ends[sec].append(max([end, *self.ends[sec][-1:]]))

    def hold(self, place: Place) -> bool:
        starts = self.starts.get(place.sec)
        i = bisect_right(starts, place.off) if starts else 0
        return i > 0 and place.off < self.ends[place.sec][i - 1]


def code_symbols(object: Object, names: set[bytes]) -> Iterator[tuple[int, Symbol]]:
    """The symbols of functions and those without a type that have such a name and lie in a text section, with their numbers."""
    for number, symbol in enumerate(object.symbols):
        if symbol.kind in (FUNC, NOTYPE) and symbol.name in names and object.is_text(symbol.home):
            yield number, symbol


def spans_named(object: Object, names: set[bytes]) -> Spans:
    """The places of the symbols with these names, but those without size."""
    return Spans((symbol.home, symbol.value, symbol.value + symbol.size) for _, symbol in code_symbols(object, names))


def symbols_at(object: Object, names: set[bytes]) -> dict[Place, int]:
    """Where symbols with these names lie, each place with the lowest one there."""
    found: dict[Place, int] = {}
    for number, symbol in code_symbols(object, names):
        found.setdefault(Place(symbol.home, symbol.value), number)
    return found


def is_joined(object: Object) -> bool:
    """Whether a linker joined the object out of several files."""
    return sum(symbol.kind == FILE for symbol in object.symbols) > 1


class Uncovered:
    """The places that no symbol of their section covers, though there is one at or below them; a section symbol is none."""

    def __init__(self, object: Object):
        own = [symbol for symbol in object.symbols if object.is_text(symbol.home) and symbol.kind != SECTION]
        self.first: dict[int, int] = {}
        for symbol in own:
            self.first[symbol.home] = min(symbol.value, self.first.get(symbol.home, symbol.value))
        self.covered = Spans((symbol.home, symbol.value, symbol.value + symbol.size) for symbol in own)

    def hold(self, place: Place) -> bool:
        return place.sec in self.first and self.first[place.sec] <= place.off and not self.covered.hold(place)
