"""`check --backtrace` (docs/FORMATS.md, "Backtraces"): what is printed behind each warning, made and judged.

    backtrace.py OBJECT [OPTION..]

prints the warnings of a check, each with a backtrace. More than one may be right, since control may come to a point by several ways of one
length; so what the program prints isn't compared with these lines but judged: `faults` tells what is wrong with it.
"""

import sys
from typing import Iterator, Optional

from check import graph_of, options_of, read_file
from commands import WARNINGS, Answer, object_of
from elf import Place
from flow import Flow
from program import Run
from rules import Options, Warning, broken_rules, depth_number
from show import Listing, state_words
from sites import Point
from states import State, brought_along, kept_levels, kept_states, set_state
from texts import Refused, escaped, place_text, warning_text

MISMATCH = 4
ENTRY, HINT, RESTORE, NEXT = "entry", "hint", "restore", "next"


class Ways:
    """The kept points of an object by their levels, and the steps by which control came from one level to the next."""

    def __init__(self, flow: Flow):
        self.flow = flow
        levels = kept_levels(flow)
        self.level = {point: number for number, level in enumerate(levels) for point in level}
        self.kept: dict[Point, State] = kept_states(flow)
        self.listing = Listing(flow, self.kept)
        self.at_place: dict[Place, list[Point]] = {}
        for point in flow.points:
            self.at_place.setdefault(point.place, []).append(point)
        # What tells a point in a text: several sections may have one name.
        self.points: dict[str, list[Point]] = {}
        for point in flow.points:
            self.points.setdefault(self.listing.point(point), []).append(point)
        self.restored: dict[Point, list[Point]] = {}
        for restore, save in self.listing.saves.items():
            self.restored.setdefault(save, []).append(restore)

    def start(self, point: Point) -> Optional[str]:
        """How a way begins at a point, which has to be of level 0."""
        if self.level.get(point) != 0:
            return None
        return ENTRY if set_state(self.flow, point) is None else HINT

    def is_free(self, point: Point) -> bool:
        """Whether states come in along edges."""
        return not self.flow.is_restore(point) and set_state(self.flow, point) is None

    def brought(self, point: Point) -> Iterator[tuple[Point, str, State]]:
        """What a kept point brings along its edges: to which point, by which kind, and the state."""
        for edge, state in brought_along(self.flow, point, self.kept[point]):
            yield edge.to, edge.kind.lower(), state

    def steps(self, point: Point) -> Iterator[tuple[Point, str]]:
        """The steps from a kept point to points of the next level: along an edge that brings what is kept there, and to a RESTORE."""
        above = self.level[point] + 1
        for head, kind, state in self.brought(point):
            if self.level.get(head) == above and self.is_free(head) and self.kept[head] == state:
                yield head, kind
        for head in self.restored.get(point, []):
            if self.level.get(head) == above:
                yield head, RESTORE

    def along_next(self, points: set[Point]) -> set[Point]:
        """These points, and those to which steps by Next alone lead."""
        found, waiting = set(points), list(points)
        while waiting:
            for head, kind in self.steps(waiting.pop()):
                if kind == NEXT and head not in found:
                    found.add(head)
                    waiting.append(head)
        return found

    def ends(self, turns: list[tuple[str, str]]) -> set[Point]:
        """The points to which ways with these turns lead; each step goes one level up, so that no way is longer than the level."""
        found: set[Point] = set()
        for number, (text, kind) in enumerate(turns):
            there = self.points.get(text, [])
            if number == 0:
                found = {point for point in there if self.start(point) == kind}
            else:
                found = {head for point in found for head, by in self.steps(point) if by == kind and kind != NEXT and head in there}
            found = self.along_next(found)
        return found

    def clashes(self, warning: Warning) -> Iterator[tuple[Point, Point, str]]:
        """Of a warning of rule 4: the edges that bring the other state to its place, with their kinds."""
        for point in sorted(self.kept):
            for head, kind, state in self.brought(point):
                if head.place != warning.place or head not in self.kept or not self.is_free(head) or self.kept[head] == state:
                    continue
                if (depth_number(self.kept[head]), depth_number(state)) == (warning.a, warning.b):
                    yield point, head, kind

    # What is told of a warning, but for its ways

    def at(self, warning: Warning) -> Optional[Point]:
        """The point of a warning: the first at its place that is kept."""
        return next((point for point in self.points_at(warning) if point in self.kept), None)

    def points_at(self, warning: Warning) -> list[Point]:
        return self.at_place.get(warning.place, [])

    def inside(self, warning: Warning) -> str:
        """The function that holds the place where the point of the warning runs; where none is kept, the first point there."""
        point = self.at(warning) or next(iter(self.points_at(warning)), None)
        place = self.flow.address[point] if point is not None else warning.place
        function = self.flow.functions.at(place)
        if function is None:
            return "no function"
        start = self.flow.functions.list[function].start
        return f"{escaped(self.flow.functions.name(function))}+{place.off - start.off:#x}"

    def first_lines(self, name: str, warning: Warning) -> list[str]:
        """Where a warning of the input with this name is, and the state that is kept there."""
        return [f"in {escaped(name.encode())}: {self.inside(warning)}", f"state: {state_words(self.kept.get(self.at(warning)))}"]

    # A backtrace that is made

    def way(self, point: Point) -> list[tuple[Point, str]]:
        """The turns of one way to a kept point."""
        turns: list[tuple[Point, str]] = []
        while self.level[point] > 0:
            before, kind = next(
                (other, kind)
                for other, level in self.level.items()
                if level == self.level[point] - 1
                for head, kind in self.steps(other)
                if head == point
            )
            turns = turns if kind == NEXT else [(point, kind), *turns]
            point = before
        return [(point, self.start(point)), *turns]

    def text_of(self, turns: list[tuple[Point, str]]) -> str:
        return ", ".join(f"{self.listing.point(point)} {kind}" for point, kind in turns)

    def lines(self, name: str, warning: Warning) -> list[str]:
        """A backtrace of a warning of the input with this name."""
        point = self.at(warning)
        lines = self.first_lines(name, warning)
        if point is not None:
            lines.append(f"way: {self.text_of(self.way(point))}")
        if warning.rule == MISMATCH:
            source, head, kind = next(self.clashes(warning))
            lines.append(f"other way: {self.text_of([*self.way(source), (head, kind)])}")
        return [f"    {line}" for line in [*lines, f"see: objtool explain {warning.rule}"]]

    # A backtrace that is judged

    def faults(self, name: str, warning: Warning, lines: list[str]) -> Iterator[str]:
        """What is wrong with these lines as the backtrace of a warning."""
        point = self.at(warning)
        wanted = self.first_lines(name, warning)
        wanted += ["way: "] * (point is not None) + ["other way: "] * (warning.rule == MISMATCH) + [f"see: objtool explain {warning.rule}"]
        if len(lines) != len(wanted):
            yield f"{len(lines)} lines, not {len(wanted)}"
            return
        for line, beginning in zip(lines, wanted):
            rest = line.removeprefix(f"    {beginning}")
            if rest == line or bool(rest) != beginning.endswith(" "):
                yield f"{line!r} isn't {beginning!r}"
            elif beginning == "way: " and point not in self.ends(turns_of(rest)):
                yield f"no way to the point: {line!r}"
            elif beginning == "other way: ":
                *turns, (text, kind) = turns_of(rest)
                sources = self.ends(turns)
                if not any(source in sources and (self.listing.point(head), by) == (text, kind) for source, head, by in self.clashes(warning)):
                    yield f"no way that brings the other state: {line!r}"


def turns_of(text: str) -> list[tuple[str, str]]:
    """The turns of a line: a point's text and a kind each."""
    return [(point, kind) for point, _, kind in (turn.rpartition(" ") for turn in text.split(", "))]


def broken(data: bytes, options: Options, names_file: Optional[bytes]) -> tuple[Ways, list[Warning]]:
    """The ways of an object's code, and the warnings of a check. Raises Refused."""
    object, names = object_of(data, names_file)
    flow = graph_of(object, names, options.all_opcodes)
    ways = Ways(flow)
    return ways, broken_rules(flow, options)


def backtrace_faults(run: Run, name: str, data: bytes, options: Options, names_file: Optional[bytes], answer: Answer) -> list[str]:
    """What is wrong with a run of `check --backtrace` on an object of which `check` without that option has this answer."""
    if answer.status != WARNINGS:
        return [] if (run.status, run.lines) == (answer.status, answer.lines) else ["a backtrace where no rule is broken"]
    if run.status != WARNINGS or run.fault or run.written is not None:
        return [f"status {run.status}, {run.fault or 'written'}"]
    ways, warnings = broken(data, options, names_file)
    told: list[tuple[str, list[str]]] = []
    for line in run.lines:
        if not line.startswith("    "):
            told.append((line, []))
        elif told:
            told[-1][1].append(line)
        else:
            return ["a backtrace of no warning"]
    if [line for line, _ in told] != answer.lines:
        return ["the warnings"]
    return [f"{line}: {fault}" for warning, (line, lines) in zip(warnings, told) for fault in ways.faults(name, warning, lines)]


def backtraces(data: bytes, name: str, options: Options = Options(), names_file: Optional[bytes] = None) -> list[str]:
    """The warnings of a check, each with a backtrace."""
    ways, warnings = broken(data, options, names_file)
    return [line for warning in warnings for line in (warning_text(ways.flow.object, warning), *ways.lines(name, warning))]


def main(path: str, *words: str) -> int:
    names = [word.removeprefix("--names=") for word in words if word.startswith("--names=")]
    try:
        lines = backtraces(read_file(path), path.rpartition("/")[2], options_of(list(words)), read_file(names[0]) if names else None)
    except Refused as refused:
        print(f"refused: {refused}")
        return 2
    print("\n".join(lines))
    return WARNINGS if lines else 0


if __name__ == "__main__":
    sys.exit(main(*sys.argv[1:]))
