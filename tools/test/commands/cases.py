"""Cases: a folder each, or a row each of a folder's table."""

import itertools
import re
from pathlib import Path
from typing import Iterator, NamedTuple

from faults import CaseFault
from inputs import Inputs, texts_of
from transcript import Transcript, read_transcript


class Case(NamedTuple):
    """What is run: a name, the files that are there at the start, and the transcript."""

    name: str
    files: dict[str, bytes]
    transcript: Transcript


def values_of(cell: str) -> list[str]:
    """The values of a cell that holds several: parted by commas, each a value, or the numbers `first..last` or `first..last by step`."""
    values = []
    for part in (part.strip() for part in cell.split(",")):
        range_of = re.fullmatch(r"(\d+)\.\.(\d+)(?: by (\d+))?", part)
        values += map(str, range(int(range_of[1]), int(range_of[2]) + 1, int(range_of[3] or 1))) if range_of else [part]
    return values


def rows_of(table: str) -> Iterator[tuple[str, dict[str, str]]]:
    """The rows of a table, each with its place and its values by the names of the columns.

    The first line names the columns, parted by `|`. One whose name ends in `*` holds several values, and each of them gives a
    row. A row may lack its last cells, which are empty then. `\\n` in a cell is a new line. Empty lines and those that begin with
    `#` say nothing."""
    lines = [(i, line) for i, line in enumerate(table.splitlines(), 1) if line.strip() and not line.startswith("#")]
    if not lines:
        raise CaseFault("an empty table")
    heads = [head.strip() for head in lines[0][1].split("|")]
    names = [head.rstrip("*") for head in heads]
    for at, line in lines[1:]:
        cells = [cell.strip().replace("\\n", "\n") for cell in line.split("|")]
        if len(cells) > len(heads):
            raise CaseFault(f"table line {at}: {len(cells)} cells, and {len(heads)} columns")
        cells += [""] * (len(heads) - len(cells))
        choices = [values_of(cell) if head.endswith("*") else [cell] for head, cell in zip(heads, cells)]
        for values in itertools.product(*choices):
            several = ", ".join(value for value, head in zip(values, heads) if head.endswith("*"))
            yield f"line {at}" + (f" ({several})" if several else ""), dict(zip(names, values))


def filled(text: str, values: dict[str, str]) -> str:
    """The text with a row's values in the place of `{column}`."""
    return re.sub(r"\{(\w+)\}", lambda found: values.get(found[1], found[0]), text)


class Folder:
    """A folder of cases."""

    def __init__(self, path: Path, common: Inputs):
        self.path = path
        self.script = (path / "case").read_text()
        self.own = texts_of(path)
        self.common = common

    def rows(self) -> Iterator[tuple[str, dict[str, str]]]:
        """The rows of the table; where there is none, one that says nothing."""
        table = self.path / "table"
        return rows_of(table.read_text()) if table.exists() else iter([("", {})])

    def case(self, where: str, values: dict[str, str]) -> Case:
        """The case of a row."""
        transcript = read_transcript(filled(self.script, values))
        inputs = Inputs({name: filled(text, values) for name, text in self.own.items()})
        for name in transcript.used:
            inputs.made[name] = self.common.bytes_of(name)
        names = [*inputs.makers, *transcript.used]
        title = f"{self.path.name}, {where}" if where else self.path.name
        return Case(title, {name: inputs.bytes_of(name) for name in names}, transcript)


class Row(NamedTuple):
    """A row of a folder, of which a case can be made."""

    folder: Folder
    where: str
    values: dict[str, str]

    def case(self) -> Case:
        try:
            return self.folder.case(self.where, self.values)
        except CaseFault as fault:
            raise CaseFault(f"{self.folder.path.name} {self.where}: {fault}") from None


def all_rows(top: Path, names: list[str]) -> list[Row]:
    """The rows of each folder, or of those that are named."""
    common = Inputs(texts_of(top / "common"))
    folders = [path for path in sorted(top.iterdir()) if path.is_dir() and path.name != "common"]
    absent = set(names) - {path.name for path in folders}
    if absent:
        raise CaseFault(f"no case {', '.join(sorted(absent))}")
    rows = []
    for path in folders:
        if not names or path.name in names:
            try:
                folder = Folder(path, common)
                rows += [Row(folder, where, values) for where, values in folder.rows()]
            except (CaseFault, FileNotFoundError) as fault:
                raise CaseFault(f"{path.name}: {fault}") from None
    return rows
