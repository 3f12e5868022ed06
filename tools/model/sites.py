"""The sites of alternatives, and the points of an object's code.

The entries of one original place are one site. Whenever control arrives there, the original code or any replacement may stand in
it. So a point is an instruction of one variant: variant 0 is the plain code, of all text sections, and variant k the code that entry
k - 1 puts in place of its original. A replacement shorter than its site is followed by a padding point, a nop over the rest.
"""

from typing import NamedTuple, Optional

from instructions import Code
from elf import Place
from opcodes import Insn
from special import Alternative, Special
from texts import Refused


class Point(NamedTuple):
    """An instruction by its own place, which for a replacement lies where the replacement stands, and its variant."""

    place: Place
    variant: int


class Site(NamedTuple):
    start: Place
    length: int
    # The entries whose originals are the site, by their numbers, which are their variants less one.
    entries: list[int]

    @property
    def end(self) -> Place:
        return Place(self.start.sec, self.start.off + self.length)

    def holds(self, place: Place) -> bool:
        return place.sec == self.start.sec and 0 <= place.off - self.start.off < self.length


class Sites:
    """The sites of an object and the points of its code, in the order of place and variant."""

    def __init__(self, code: Code, special: Special):
        self.code, self.alternatives = code, special.alternatives
        self.at_start: dict[Place, Site] = {}
        # The site of each of its bytes.
        self._of_byte: dict[Place, Site] = {}
        for number, entry in enumerate(special.alternatives):
            if entry.original_len > 0:
                self._add_entry(number, entry)
        self.list = sorted(self.at_start.values(), key=lambda site: site.start)
        self._insns: dict[Point, Insn] = {}
        self._addresses: dict[Point, Place] = {}
        # The points of each variant but 0 in their order.
        self.of_variant: dict[int, list[Point]] = {}
        self._make_points()
        self.points = sorted(self._insns)

    def _add_entry(self, number: int, entry: Alternative) -> None:
        def ask(good: bool, why: str) -> None:
            if not good:
                raise Refused(f"alternative {number}: {why}")

        code, place = self.code, entry.original
        ask(code.is_boundary(place) and code.is_boundary_or_end(moved(place, entry.original_len)), "NotBoundary")
        taken = [self._of_byte.get(moved(place, i)) for i in range(entry.original_len)]
        same = self.at_start.get(place)
        ask(all(site is None or site is same and site.length == entry.original_len for site in taken), "Overlap")
        start, end = entry.replacement, moved(entry.replacement, entry.replacement_len)
        ask(code.is_boundary_or_end(start) and code.is_boundary_or_end(end), "Replacement")
        if same is None:
            same = self.at_start[place] = Site(place, entry.original_len, [])
            self._of_byte.update((moved(place, i), same) for i in range(entry.original_len))
        same.entries.append(number)

    def _make_points(self) -> None:
        for sec, insns in self.code.insns.items():
            for off, insn in insns.items():
                self._insns[Point(Place(sec, off), 0)] = insn
        for site in self.list:
            for number in site.entries:
                self._add_replacement(site, number)
        for point in self._insns:
            if point.variant == 0:
                self._addresses[point] = point.place

    def _add_replacement(self, site: Site, number: int) -> None:
        entry, variant = self.alternatives[number], number + 1
        start, length = entry.replacement, entry.replacement_len
        off = 0
        points = self.of_variant[variant] = []
        while off < site.length:
            place = moved(start, off)
            insn = self.code.insn(place) if off < length else Insn(site.length - off, "Nop")
            point = Point(place, variant)
            self._insns[point], self._addresses[point] = insn, moved(site.start, off)
            points.append(point)
            off += insn.length

    def insn(self, point: Point) -> Insn:
        return self._insns[point]

    def address(self, point: Point) -> Place:
        """Where the instruction stands when its variant was put in place."""
        return self._addresses[point]

    def is_padding(self, point: Point) -> bool:
        """Padding is of no place: nothing that the object says of the replacement's end counts for it."""
        if point.variant == 0:
            return False
        entry = self.alternatives[point.variant - 1]
        return point.place == moved(entry.replacement, entry.replacement_len)

    def site_of(self, point: Point) -> Optional[Site]:
        """The site that the point belongs to: that of its variant, or, of plain code, the one that it stands in."""
        if point.variant == 0:
            return self.site_at(point.place)
        return self.at_start[self.alternatives[point.variant - 1].original]

    def plain_points(self, sec: int) -> list[Point]:
        """The plain points of a section."""
        return [Point(Place(sec, off), 0) for off in self.code.insns[sec]]

    def points_of(self, site: Site) -> list[Point]:
        """The points of all variants of a site, variant by variant."""
        plain, place = [], site.start
        while site.holds(place):
            plain.append(Point(place, 0))
            place = self.code.after(place)
        return plain + [point for number in site.entries for point in self.of_variant[number + 1]]

    def site_at(self, place: Place) -> Optional[Site]:
        return self._of_byte.get(place)

    def is_inside(self, place: Place) -> bool:
        """Whether the place is in a site and isn't its start."""
        site = self.site_at(place)
        return site is not None and site.start != place

    def arrive(self, place: Place) -> list[Point]:
        """The points at which control may stand when it comes to a boundary: the plain one, and each first of a site's replacements."""
        site = self.at_start.get(place)
        firsts = [self.of_variant[number + 1][0] for number in site.entries] if site else []
        return [Point(place, 0), *firsts]

    def next_points(self, point: Point) -> Optional[list[Point]]:
        """The points behind a point where control goes on, or None at the end of its section."""
        if point.variant == 0:
            return self._arrive_unless_end(self.code.after(point.place))
        points = self.of_variant[point.variant]
        i = points.index(point) + 1
        return [points[i]] if i < len(points) else self._arrive_unless_end(self.site_of(point).end)

    def _arrive_unless_end(self, place: Place) -> Optional[list[Point]]:
        return None if self.code.is_end(place) else self.arrive(place)


def moved(place: Place, by: int) -> Place:
    return Place(place.sec, place.off + by)
