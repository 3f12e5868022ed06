"""Compares the direct calls and branches of listings with those that objdump and readelf tell: compare.py OBJTOOL OBJECT..

Of each branch the operation, where it leads, the edges but for those of exceptions, and the marks of its targets are compared with the
line that `show` prints of it. Prints how many branches there are and how many are different, and the first of these.
"""

import collections
import re
import subprocess
import sys
from typing import NamedTuple, Optional

from binutils import Binary, Place
from expected import Branches, Point

LINE = re.compile(r"^  (\S+(?: variant \d+)?)(?: at \S+)? length \d+: (.*)$")
OPERATIONS = {"call": "call", "jmp": "jump"}
# The marks of targets, by what `expected` calls them.
MARKS = {"bad": "bad target", "into_site": "into a site", "into_function": "into a function"}
EDGES = "taken", "table", "sibling"
SHOWN = 20


class Branch(NamedTuple):
    """What is compared of a branch, in the words of a listing."""

    op: str
    target: str
    edges: frozenset[str]
    marks: frozenset[str]

    def kinds(self) -> list[str]:
        """What it asks for."""
        target = re.sub(r"(to) \S+\+0x[0-9a-f]+|(out to) \S+", r"\1\2 ..", self.target)
        return sorted({edge.split()[0] for edge in self.edges} | self.marks | ({target} - {""})) or ["nothing"]


def escaped(name: str) -> str:
    """A name as it is printed."""
    return "".join(chr(byte) if 0x21 <= byte <= 0x7E and byte != 0x5C else f"\\{byte:02x}" for byte in name.encode(errors="surrogateescape"))


def listed(objtool: str, path: str) -> Optional[dict[str, Branch]]:
    """The direct calls and branches that `show` lists, by their points; None where the object is refused.

    It is without --all-opcodes, since an objdump that doesn't know one of these takes it for several instructions.
    """
    run = subprocess.run([objtool, "show", path], capture_output=True, text=True, check=False)
    if run.returncode == 2:
        return None
    if run.returncode != 0:
        sys.exit(f"branches: {path}: status {run.returncode}")
    branches = {}
    for line in run.stdout.splitlines():
        if not line.startswith("  "):
            continue
        found = LINE.match(line)
        if found is None:
            sys.exit(f"branches: {path}: not understood: {line}")
        insn, _, *rest = found[2].split("; ")
        op, _, target = insn.partition(" ")
        if op in ("call", "hop", "jump", "jump-if"):
            edges = frozenset(part for part in rest if part.split()[0] in EDGES)
            branches[found[1]] = Branch(op, target, edges, frozenset(rest) & set(MARKS.values()))
    return branches


class Words:
    """What binutils tell of an object's branches, in the words of a listing."""

    def __init__(self, path: str):
        self.branches = Branches(Binary(path))
        self.binary = self.branches.binary

    def has_one_name_twice(self) -> bool:
        """Whether two text sections have one name, so that places don't tell them apart."""
        names = [section.name for section in self.binary.sections.values() if section.is_text]
        return len(set(names)) < len(names)

    def place(self, place: Place) -> str:
        return f"{escaped(self.binary.sections[place.sec].name)}+{place.off:#x}"

    def point(self, point: Point) -> str:
        return self.place(point.place) + (f" variant {point.variant}" if point.variant else "")

    def target(self, role: tuple[str, Optional[Place], Optional[int]]) -> str:
        kind, entry, sym = role
        if kind in ("CallAny", "JumpAny"):
            return "to anywhere"
        if kind == "Return":
            return "to the caller"
        targets = [f"out to {escaped(self.binary.symbols[sym].name)}"] if sym is not None else []
        return " or ".join(targets + ([f"to {self.place(entry)}"] if entry is not None else []))

    def expected(self, point: Point) -> Branch:
        op = OPERATIONS.get(self.binary.branches[point.place].name, "jump-if")
        op = "hop" if point.place in self.branches.calls_within else op
        answer = self.branches.answer(point)
        edges = frozenset(f"{kind.lower()} {self.point(to)}" for kind, to in answer.edges)
        return Branch(op, self.target(answer.role), edges, frozenset(MARKS[mark] for mark in answer.marks))


def compare(path: str, found: dict[str, Branch], words: Words, count: collections.Counter) -> list[str]:
    wanted = {words.point(point): words.expected(point) for point in words.branches.points()}
    count["branches"] += len(wanted)
    for branch in wanted.values():
        count.update(branch.kinds())
    differences = [f"{path}: {point}: expected {branch}, found {found.get(point)}" for point, branch in wanted.items() if found.get(point) != branch]
    return differences + [f"{path}: {point}: no direct call or branch" for point in sorted(found.keys() - wanted.keys())]


def main(objtool: str, *paths: str) -> int:
    count: collections.Counter = collections.Counter()
    differences, compared = [], 0
    for path in paths:
        found = listed(objtool, path)
        words = Words(path) if found is not None else None
        if words is not None and not words.has_one_name_twice():
            compared += 1
            differences += compare(path, found, words, count)
    for difference in differences[:SHOWN]:
        print(difference)
    total = count.pop("branches", 0)
    left = len(paths) - compared
    print(f"branches: {total} direct calls and branches of {compared} objects, {len(differences)} different")
    print(f"  {left} objects are refused or have two sections of one name")
    print("  " + ", ".join(f"{kind} {number}" for kind, number in sorted(count.items())))
    return 1 if differences or total == 0 else 0


if __name__ == "__main__":
    sys.exit(main(*sys.argv[1:]))
