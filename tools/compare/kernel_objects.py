"""Checks the objects of a folder, and compares what comes out with what is expected and with what Linux's objtool tells:
kernel_objects.py FOLDER PROGRAM LINUX [--all-opcodes]. An empty PROGRAM stands for the model, an empty LINUX for none."""

import multiprocessing
import os
import re
import shutil
import subprocess
import sys
import tempfile
from collections import Counter
from pathlib import Path
from typing import NamedTuple, Optional

from linux_rows import Difference, by_linux, count, differences, dumped

STATUSES = ["accepted", "warned", "refused"]
# How long a program may take for an object, in seconds.
SECONDS = 120
AUX = ".altinstr_aux"


class Ran(NamedTuple):
    status: int
    lines: list[str]
    complaints: list[str]


def ran(*words: str) -> Ran:
    try:
        it = subprocess.run(words, stdin=subprocess.DEVNULL, capture_output=True, encoding="utf-8", errors="replace", timeout=SECONDS)
    except subprocess.TimeoutExpired:
        return Ran(-1, [f"no end within {SECONDS} seconds"], [])
    return Ran(it.returncode, it.stdout.splitlines(), it.stderr.splitlines())


class Answer(NamedTuple):
    """What `check` answers of an object, with the rows of the one that is written."""

    status: int
    lines: list[str]
    rows: list[str]


def by_program(program: str, path: str, options: list[str]) -> Answer:
    checked = ran(program, "check", path, "out.o", *options)
    return Answer(checked.status, checked.lines, ran(program, "dump", "out.o").lines if checked.status == 0 else [])


def by_model(path: str, options: list[str]) -> Answer:
    from check import check, options_of, read_file

    answer = check(read_file(path), options_of(options))
    return Answer(answer.status, answer.lines, answer.rows)


class Found(NamedTuple):
    """What was found of an object: its status, why it is not accepted, whether it was as expected, how many rows were compared, where
    they aren't those of Linux, and of what Linux warns."""

    name: str
    status: int
    causes: list[str]
    first: str
    expected: Optional[bool]
    rows: Optional[int]
    differences: list[Difference]
    warnings: list[str]


def without_aux(rows: dict) -> dict:
    return {section: own for section, own in rows.items() if section != AUX}


def text_of_refusal(line: str) -> str:
    """What a refusal says, without names, places and numbers."""
    for pattern, there in ((r"^refused: ", ""), (r"[0-9a-f]{2,}$", ""), (r"\S*\+0x[0-9a-f]+", "PLACE"), (r"[0-9]+", "N")):
        line = re.sub(pattern, there, line)
    return line


def text_of_warning(line: str) -> str:
    """What Linux warns of, without the object and the place."""
    text = re.sub(r"^\S+: ((?:warning|error): )?(objtool: )?", "", line)
    return re.sub(r"\b0x[0-9a-f]+\b|\b[0-9]+\b", "N", re.sub(r"\S+\+0x[0-9a-f]+", "PLACE", re.sub(r"\S+\(\)", "NAME()", text)))


def causes_of(answer: Answer) -> list[str]:
    if answer.status == 1:
        return [found[1] if (found := re.match(r"\S*: (rule \d+):", line)) else "another line" for line in answer.lines]
    return [text_of_refusal(line) for line in answer.lines[:1]] if answer.status else []


def is_expected(folder: Path, name: str, answer: Answer) -> Optional[bool]:
    """Whether the answer is the one that is written down, where one is."""
    status, lines = folder / f"{name}.status", folder / f"{name}.lines"
    if not status.exists():
        return None
    return (answer.status, answer.lines) == (int(status.read_text()), lines.read_text().splitlines())


def look_at(folder: Path, path: Path, program: str, linux: str, options: list[str]) -> Found:
    name = str(path.relative_to(folder / "objects" if (folder / "objects").is_dir() else folder).with_suffix(""))
    with tempfile.TemporaryDirectory() as scratch:
        os.chdir(scratch)
        answer = by_program(program, str(path), options) if program else by_model(str(path), options)
        expected = is_expected(folder / f"expected{''.join(options).replace('--', '-')}", name, answer)
        written, told, warnings = folder / "linux-rows" / f"{name}.rows", [], []
        if linux:
            shutil.copy(path, "own.o")
            by = ran(linux, *os.environ.get("LINUX_OPTIONS", "--orc").split(), "own.o")
            warnings = [text_of_warning(line) for line in by.complaints] + [f"status {by.status}"] * (by.status != 0)
            told.append(by_linux(ran(linux, "--dump=orc", "own.o").lines))
        if written.exists():
            told.append(dumped(written.read_text().splitlines()))
        differ, rows = [], None
        if answer.status == 0 and told:
            here = without_aux(dumped(answer.rows))
            differ = [it for there in told for it in differences(here, without_aux(there))]
            rows = count(here)
        os.chdir("/")
    return Found(name, answer.status, causes_of(answer), (answer.lines or [""])[0], expected, rows, list(dict.fromkeys(differ)), warnings)


def print_counts(counts: Counter[str], form: str) -> None:
    for text, number in sorted(counts.items()):
        print(form.format(text=text, number=number))


def print_causes(found: list[tuple[str, list[Difference]]]) -> None:
    """Of each cause how many places and objects have it, and the first place with what both say."""
    causes: dict[str, list[tuple[str, Difference]]] = {}
    for name, differences in found:
        for it in differences:
            causes.setdefault(it.cause, []).append((name, it))
    for cause, places in sorted(causes.items()):
        name, first = places[0]
        told = f"{name} {first.place}: " + " / ".join(it or "-" for it in (first.here, first.there))
        print(f"  {cause}: {len(places)} places of {len({it for it, _ in places})} objects, first {told}")


def main(folder: str, program: str, linux: str, *options: str) -> int:
    top = Path(folder)
    objects = top / "objects" if (top / "objects").is_dir() else top
    paths = sorted(it for it in objects.rglob("*.o") if it.is_file())
    with multiprocessing.Pool(int(os.environ.get("JOBS") or os.cpu_count() or 1)) as pool:
        found = pool.starmap(look_at, [(top, path, program, linux, list(options)) for path in paths], 1)
    others = [it for it in found if it.status not in (0, 1, 2)]
    unexpected = [it for it in found if it.expected is False]
    for it in others + unexpected:
        print(f"{it.name}: status {it.status}{', not as expected' if it.expected is False else ''}: {it.first}")
    print(", ".join(f"{word} {sum(it.status == status for it in found)}" for status, word in enumerate(STATUSES)))
    print_counts(Counter(cause for it in found if it.status == 1 for cause in it.causes), "  {text}: {number} warnings")
    print_counts(Counter(cause for it in found if it.status == 2 for cause in it.causes), "  refused {number}: {text}")
    if any(it.expected is not None for it in found):
        print(f"as expected {sum(bool(it.expected) for it in found)}")
    compared = [it for it in found if it.rows is not None]
    differ = [(it.name, it.differences) for it in found if it.differences]
    if compared:
        print(f"rows as Linux's {len(compared) - len(differ)}, others {len(differ)}; {sum(it.rows for it in compared)} rows")
        print_causes(differ)
    if linux:
        for status, word in enumerate(STATUSES):
            print(f"Linux warns of {sum(it.status == status and bool(it.warnings) for it in found)} that are {word} here")
        print_counts(Counter(text for it in found for text in it.warnings), "  by Linux {number}: {text}")
    return 0 if found and not (others or unexpected or differ) else 1


if __name__ == "__main__":
    sys.exit(main(*sys.argv[1:]))
