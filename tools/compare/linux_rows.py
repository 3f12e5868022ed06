"""ORC rows in one notation: of a row the place, and KIND, or where it tells a frame KIND cfa REG+N bp REG+N, and signal. An undefined
register has no offset, and a row that tells no frame no registers."""

import re
from typing import Iterable, NamedTuple

DUMPED = re.compile(r"(.*)\+0x([0-9a-f]+): (\w+) cfa (\S+?)([-+]\d+) bp (\S+?)([-+]\d+)( signal)?")
BY_LINUX = re.compile(r"(.*)\+([0-9a-f]+):type:(call|regs|regs \(partial\)|end|\(und\)) sp:(\S+) bp:(\S+) signal:([01])")
KINDS = {"regs (partial)": "partial", "(und)": "undefined"}


class Row(NamedTuple):
    """What a row tells: its kind, the frame's top, the place of rbp, and whether it is of a signal's frame."""

    kind: str
    top: str = ""
    saved: str = ""
    signal: bool = False

    def __str__(self) -> str:
        return " ".join([self.kind, *([f"cfa {self.top} bp {self.saved}"] if self.top else []), *["signal"] * self.signal])


# The rows of each section, ascending, each at its offset.
Rows = dict[str, list[tuple[int, Row]]]


def row_of(kind: str, top: str, saved: str, signal: bool) -> Row:
    return Row(kind) if kind in ("undefined", "end") else Row(kind, top, saved, signal)


def dumped(lines: Iterable[str]) -> Rows:
    """The rows that `dump` prints."""
    rows: Rows = {}
    for line in lines:
        section, offset, kind, top, by, saved, at, signal = DUMPED.fullmatch(line).groups()
        top, saved = (reg if reg == "undef" else reg + there for reg, there in ((top, by), (saved, at)))
        rows.setdefault(section, []).append((int(offset, 16), row_of(kind, top, saved, bool(signal))))
    return rows


def by_linux(lines: Iterable[str]) -> Rows:
    """The rows that Linux's `objtool --dump=orc` prints."""
    rows: Rows = {}
    for line in lines:
        found = BY_LINUX.fullmatch(line)
        if found:
            section, offset, kind, top, saved, signal = found.groups()
            top, saved = (re.sub(r"\((bp|sp)([-+]\d+)\)", r"(\1)\2", it.replace("prevsp", "prev").replace("(und)", "undef")) for it in (top, saved))
            rows.setdefault(section, []).append((int(offset, 16), row_of(KINDS.get(kind, kind), top, saved, signal == "1")))
    return rows


class Difference(NamedTuple):
    """Where the rows of two tables aren't the same: why, at which place, and the row of each that holds there."""

    cause: str
    place: str
    here: str
    there: str


def register(rule: str) -> str:
    return re.sub(r"[-+]\d+$", "", rule)


def cause_of(here: Row, there: Row) -> str:
    """What differs in two rows, of which the second is Linux's."""
    if here.kind != there.kind:
        return f"kind {here.kind}, by Linux {there.kind}"
    for what, one, other in (("frame's top", here.top, there.top), ("place of rbp", here.saved, there.saved)):
        if register(one) != register(other):
            return f"{what} by {register(one)}, by Linux by {register(other)}"
        if one != other:
            return f"{what} by {register(one)} with another offset"
    return "signal"


NONE = Row("no row")


def differences(here: Rows, there: Rows) -> list[Difference]:
    """Where what is told of an address differs, at each place where either table has a row. No row and an undefined one are the same."""
    found = []
    for section in sorted(here.keys() | there.keys()):
        one, other = dict(here.get(section, [])), dict(there.get(section, []))
        if not one or not other:
            cause = f"no rows of {section} " + ("by Linux" if one else "here")
            found += [Difference(cause, f"{section}+{offset:#x}", str(row), "") for offset, row in (one or other).items() if row.kind != "undefined"]
            continue
        mine, theirs = NONE, NONE
        for offset in sorted(one.keys() | other.keys()):
            mine, theirs = one.get(offset, mine), other.get(offset, theirs)
            if mine != theirs and not {mine.kind, theirs.kind} <= {"no row", "undefined"}:
                found.append(Difference(cause_of(mine, theirs), f"{section}+{offset:#x}", str(mine), str(theirs)))
    return found


def count(rows: Rows) -> int:
    return sum(map(len, rows.values()))
