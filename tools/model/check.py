"""What `check` answers on an object: its status and lines, and where it accepts the object, the rows and the object that is written.

    check.py OBJECT [OPTION..] [--rows]

prints the lines, or with `--rows` the rows, and ends with the status.
"""

import sys
from typing import Optional

from commands import DONE, WARNINGS, Answer, answered, lacking_symbols, object_of, read_code, refuse_sections
from elf import Object
from flow import Flow
from names import Names
from output import with_rows
from remembered import remembered
from rows import all_rows
from rules import Options, broken_rules
from states import kept_states
from texts import row_text, warning_text

ORC_SECTIONS = (b".orc_unwind", b".orc_unwind_ip", b".rela.orc_unwind_ip")


@remembered
def graph_of(object: Object, names: Names, whole: bool = False) -> Flow:
    """The control-flow graph of the object's code, which the base map or the whole one reads. Raises Refused."""
    return Flow(*read_code(object, whole, names), names)


def check(data: bytes, options: Options = Options(), names_file: Optional[bytes] = None) -> Answer:
    """The answer on these bytes, and on those of the names file where one is given."""

    def answer() -> Answer:
        object, names = object_of(data, names_file)
        flow = graph_of(object, names, options.all_opcodes)
        refuse_sections(object, ORC_SECTIONS, "an ORC section", 3)
        kept, warnings = kept_states(flow), broken_rules(flow, options)
        if warnings:
            return Answer(WARNINGS, [warning_text(object, warning) for warning in warnings])
        rows = all_rows(flow, kept)
        lacking_symbols(object, [place for place, _ in rows])
        return Answer(DONE, [], [row_text(object, place, row) for place, row in rows], with_rows(object, rows))

    return answered(answer)


def options_of(words: list[str]) -> Options:
    given = {name: f"--{name}" in words for name in ("fp", "retpoline", "rethunk", "uaccess", "link", "module")}
    return Options(**given, unreachable="--no-unreachable" not in words, all_opcodes="--all-opcodes" in words)


def read_file(path: str) -> bytes:
    with open(path, "rb") as file:
        return file.read()


def main(path: str, *words: str) -> int:
    names = [word.removeprefix("--names=") for word in words if word.startswith("--names=")]
    answer = check(read_file(path), options_of(list(words)), read_file(names[0]) if names else None)
    for line in answer.rows if "--rows" in words else answer.lines:
        print(line)
    return answer.status


if __name__ == "__main__":
    sys.exit(main(*sys.argv[1:]))
