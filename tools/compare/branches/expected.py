"""What a direct call or branch asks for, by what binutils tell of it: its role, edges and marks.

The rules are those of docs/FORMATS.md and docs/DEFINITIONS.md, over places alone.
"""

from typing import NamedTuple, Optional

from binutils import Binary, Branch, Place
from functions import Functions

# Kinds of hints.
UNDEFINED, END_OF_STACK, CALL, FUNC = 0, 1, 2, 5
BRANCH_TYPES = "R_X86_64_PC32", "R_X86_64_PLT32"


class Point(NamedTuple):
    """Where an instruction stands; the variant is 0 in the code as it is assembled, and k + 1 in the replacement of entry k."""

    place: Place
    variant: int


class Answer:
    """What a point has: its role with the entry and the symbol that it names, its edges, and what is wrong with its targets."""

    def __init__(self):
        self.role: tuple[str, Optional[Place], Optional[int]] = ("Plain", None, None)
        self.edges: set[tuple[str, Point]] = set()
        self.marks: set[str] = set()


class Branches:
    """The points of an object that are direct calls and branches, and what each asks for."""

    def __init__(self, binary: Binary):
        self.binary = binary
        self.functions = Functions(binary)
        self.sites: dict[Place, list[Point]] = {}
        self.originals: dict[Place, Place] = {}
        for k, entry in enumerate(binary.alternatives):
            if entry.original_len > 0:
                self.sites.setdefault(entry.original, []).append(Point(entry.replacement, k + 1))
                for byte in range(entry.original_len):
                    self.originals[entry.original.behind(byte)] = entry.original
        self.static: dict[Place, list[Place]] = {}
        for code, target in binary.pairs("__jump_table", 16):
            self.static.setdefault(code, []).append(target)
        self.calls_within = set(binary.listed(".discard.intra_function_calls"))

    def points(self) -> list[Point]:
        """Each branch where it stands, and once more in each replacement that has it."""
        listed = [Point(place, 0) for place in self.binary.branches]
        for k, entry in enumerate(self.binary.alternatives):
            if entry.original_len > 0:
                places = (entry.replacement.behind(byte) for byte in range(entry.replacement_len))
                listed += [Point(place, k + 1) for place in places if place in self.binary.branches]
        return listed

    def _entry(self, point: Point):
        return self.binary.alternatives[point.variant - 1]

    def _runs_at(self, point: Point) -> Place:
        if point.variant == 0:
            return point.place
        entry = self._entry(point)
        return entry.original.behind(point.place.off - entry.replacement.off)

    def _owner(self, point: Point) -> Optional[int]:
        return self.functions.owner_at(self._runs_at(point))

    def _is_unchecked(self, owner: Optional[int]) -> bool:
        return owner in self.functions.unchecked_owners

    def _arrive(self, place: Place) -> list[Point]:
        """Where control that comes to a place may stand."""
        return [Point(place, 0)] + self.sites.get(place, [])

    def _enters_site(self, point: Point, place: Place) -> bool:
        """The place is in a site past its start, and the point is no original code of that site."""
        site = self.originals.get(place)
        return site is not None and site != place and (point.variant > 0 or self.originals.get(point.place) != site)

    def answer(self, point: Point) -> Answer:
        branch = self.binary.branches[point.place]
        if point.place in self.calls_within:
            return self._call_within(point, branch._replace(name="jmp"))
        return self._branch(point, branch)

    def _call_within(self, point: Point, as_jump: Branch) -> Answer:
        """A call within a function goes where a jump would, and nowhere else than into the same owner's code."""
        answer = self._branch(point, as_jump)
        if answer.role[0] != "Plain" or any(kind != "Taken" for kind, _ in answer.edges):
            answer.role, answer.edges = ("Plain", None, None), set()
            answer.marks.add("bad")
        return answer

    def _branch(self, point: Point, branch: Branch) -> Answer:
        answer = Answer()
        reloc = self.binary.relocs.get(point.place.behind(branch.len - branch.bytes), [None])[0]
        if reloc is not None:
            self._by_reloc(answer, point, branch, reloc)
        elif point.variant > 0:
            self._within_replacement(answer, point, branch)
        else:
            self._to_place(answer, point, branch, branch.to, None)
        for place in self.static.get(point.place, []):
            self._go(answer, point, place, static=True)
        if self._is_unchecked(self._owner(point)):
            answer.edges.clear()
        return answer

    def _by_reloc(self, answer: Answer, point: Point, branch: Branch, reloc) -> None:
        symbol = self.binary.symbols[reloc.sym]
        if branch.bytes != 4 or reloc.kind not in BRANCH_TYPES:
            answer.marks.add("bad")
        elif symbol.name.startswith("__x86_indirect_thunk_"):
            answer.role = ("CallAny" if branch.is_call else "JumpAny", None, None)
        elif symbol.name == "__x86_return_thunk":
            if branch.is_call:
                answer.marks.add("bad")
            else:
                answer.role = ("Return", None, None)
        elif symbol.home == "UND":
            answer.role = ("CallOut" if branch.is_call else "JumpOut", None, reloc.sym)
        elif symbol.place is None:
            answer.marks.add("bad")
        else:
            place = symbol.place.behind(reloc.addend + 4)
            self._to_place(answer, point, branch, place, reloc.sym if symbol.bind == "WEAK" else None)

    def _within_replacement(self, answer: Answer, point: Point, branch: Branch) -> None:
        """Without a relocation a replacement's code means itself, or what is behind it."""
        entry, owner = self._entry(point), self._owner(point)
        end = entry.replacement.behind(entry.replacement_len)
        has_padding = entry.replacement_len < entry.original_len
        is_inside = entry.replacement <= branch.to < end and branch.to in self.binary.starts
        is_padding = branch.to == end and has_padding
        if is_padding and branch.is_call:
            answer.marks.add("into_function")
        elif is_inside or is_padding:
            if branch.is_call:
                self._call(answer, point, branch.to, None, in_replacement=True)
            elif self._owner(Point(branch.to, point.variant)) == owner:
                answer.edges.add(("Taken", Point(branch.to, point.variant)))
            else:
                answer.marks.add("bad")
        elif branch.to == end:
            self._to_place(answer, point, branch, entry.original.behind(entry.original_len), None, crosses=False)
        else:
            answer.marks.add("bad")

    def _to_place(self, answer: Answer, point: Point, branch: Branch, place: Place, weak: Optional[int], crosses: bool = True) -> None:
        if branch.is_call:
            self._call(answer, point, place, weak)
        else:
            self._jump(answer, point, place, weak, crosses)

    def _call(self, answer: Answer, point: Point, place: Place, weak: Optional[int], in_replacement: bool = False) -> None:
        unchecked = self.functions.unchecked_start(place)
        if not self._is_start(place):
            answer.marks.add("bad")
        elif unchecked is not None:
            answer.role = ("CallOut", None, unchecked)
        elif self.functions.is_entry(place):
            answer.role = ("CallIn", place, None) if weak is None else ("CallEither", place, weak)
        elif self._may_call(point, place):
            answer.role = ("CallIn", place, None) if weak is None else ("CallEither", place, weak)
        else:
            answer.marks.add("into_function")
        if self._is_start(place) and not in_replacement and self._enters_site(point, place):
            answer.marks.add("into_site")

    def _may_call(self, point: Point, place: Place) -> bool:
        """Code of no function may call code of no function in no site, where a hint tells the stack as a call leaves it, or ends it."""
        is_told = self.binary.hints.get(place) in (UNDEFINED, END_OF_STACK, CALL, FUNC)
        return is_told and self._owner(point) is None and self.functions.owner_at(place) is None and place not in self.originals

    def _is_start(self, place: Place) -> bool:
        return self.binary.is_in_text(place) and place in self.binary.starts

    def _jump(self, answer: Answer, point: Point, place: Place, weak: Optional[int], crosses: bool) -> None:
        unchecked = self.functions.unchecked_start(place)
        if unchecked is not None:
            answer.role = ("JumpOut", None, unchecked)
        elif self._go(answer, point, place, crosses=crosses) and weak is not None:
            answer.role = ("JumpOut", None, weak)

    def _go(self, answer: Answer, point: Point, place: Place, crosses: bool = True, static: bool = False) -> bool:
        """Adds the edges to a place, or what is wrong with it; tells whether control may go there."""
        here, there = self._owner(point), self.functions.owner_at(place)
        crossing = crosses and None in (here, there) and not self._is_unchecked(here) and not self._is_unchecked(there)
        sibling = here != there and self.functions.is_entry(place)
        if not self._is_start(place) or static and self.functions.unchecked_start(place) is not None:
            answer.marks.add("bad")
            return False
        if here != there and not sibling and not crossing:
            answer.marks.add("bad")
            return False
        if self._enters_site(point, place):
            answer.marks.add("into_site")
        else:
            answer.edges |= {("Sibling" if sibling else "Taken", head) for head in self._arrive(place)}
        return True
