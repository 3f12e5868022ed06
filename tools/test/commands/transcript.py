"""Transcripts: the words of some commands, and what comes of each."""

import re
import shlex
from typing import NamedTuple

from faults import CaseFault

# An expected line that stands for any lines.
ANY = "..."


class Step(NamedTuple):
    """A command, and what is expected of it."""

    line: str
    words: list[str]
    # The file that takes standard output, or None.
    onto: str | None
    # What is printed, line by line.
    output: list[str]
    # What stands in brackets behind it.
    claims: list[str]


class Transcript(NamedTuple):
    """The common inputs that are used, and the steps."""

    used: list[str]
    steps: list[Step]


def words_of(line: str) -> tuple[list[str], str | None]:
    """The words behind `$ objtool`, and the file behind `>`."""
    words = shlex.split(line)
    if words[:1] != ["objtool"]:
        raise CaseFault(f"no command of objtool: {line}")
    if len(words) > 2 and words[-2] == ">":
        return words[1:-2], words[-1]
    return words[1:], None


def without_last_empty(lines: list[str]) -> list[str]:
    while lines and not lines[-1]:
        lines.pop()
    return lines


def step_of(line: str, behind: list[str]) -> Step:
    """The step of a command's line and the lines behind it."""
    words, onto = words_of(line)
    claims = [it[1:-1] for it in behind if is_claim(it)]
    output = without_last_empty([it for it in behind if not is_claim(it)])
    return Step(line, words, onto, output, claims)


def is_claim(line: str) -> bool:
    return line.startswith("[") and line.endswith("]")


def read_transcript(text: str) -> Transcript:
    """The transcript of a file `case`. Lines that begin with `# ` are comments."""
    used, blocks = [], []
    for line in text.splitlines():
        if line.startswith("$ "):
            blocks.append((line[2:], []))
        elif line == "#" or line.startswith("# "):
            continue
        elif blocks:
            blocks[-1][1].append(line)
        elif line.startswith("[use ") and is_claim(line):
            used.append(line[5:-1])
        elif line:
            raise CaseFault(f"a line before the first command: {line}")
    if not blocks:
        raise CaseFault("no command")
    return Transcript(used, [step_of(line, behind) for line, behind in blocks])


def lines_of(output: bytes) -> list[str]:
    """Printed text as lines of a transcript; a last line without its end gets a backslash."""
    text = output.decode(errors="backslashreplace")
    if not text:
        return []
    if text.endswith("\n"):
        return text[:-1].split("\n")
    return (text + "\\").split("\n")


def fits(expected: list[str], found: list[str]) -> bool:
    """Whether lines are those that are expected, where ANY stands for any."""
    pattern = "".join("(?:.*\n)*" if line == ANY else re.escape(line) + "\n" for line in expected)
    return re.fullmatch(pattern, "".join(line + "\n" for line in found)) is not None
