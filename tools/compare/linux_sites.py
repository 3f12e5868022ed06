"""Compares the site lists that `sites` writes of the objects below a folder with those of Linux's objtool:
linux_sites.py FOLDER PROGRAM LINUX OPTION... An empty PROGRAM stands for the model."""

import multiprocessing
import os
import re
import shutil
import subprocess
import sys
import tempfile
from pathlib import Path
from typing import NamedTuple, Optional

LISTS = {"retpoline": ".retpoline_sites", "return": ".return_sites", "call": ".call_sites"}
# How long a program may take for an object, in seconds.
SECONDS = 120


def ran(*words: str) -> tuple[int, list[str]]:
    """The status of a program and the lines that it prints."""
    try:
        it = subprocess.run(words, stdin=subprocess.DEVNULL, capture_output=True, encoding="utf-8", errors="replace", timeout=SECONDS)
    except subprocess.TimeoutExpired:
        return -1, [f"no end within {SECONDS} seconds"]
    return it.returncode, it.stdout.splitlines()


def by_model(path: str, out: str, options: list[str]) -> int:
    from site_lists import sites

    asked = {option.removeprefix("--").replace("-", "_"): True for option in options}
    answer = sites(Path(path).read_bytes(), asked.pop("all_opcodes", False), None, **asked)
    if answer.written is not None:
        Path(out).write_bytes(answer.written)
    return answer.status


def places_in(path: str) -> set[str]:
    """The places of the site lists of an object as readelf shows them, each behind its list's word."""
    found, own = set(), None
    words = {section: kind for kind, section in LISTS.items()}
    for line in ran("readelf", "-rW", path)[1]:
        head = re.match(r"Relocation section '\.rela(\S+)'", line)
        own = words.get(head[1]) if head else own
        columns = line.split()
        if own and len(columns) == 7 and columns[2].startswith("R_X86_64"):
            found.add(f"{own} {columns[4]}+0x{int(columns[6], 16):x}")
    return found


class Found(NamedTuple):
    """What was found of an object: whether it was given lists, their places, and those of Linux's."""

    name: str
    status: int
    here: set[str]
    there: set[str]


def look_at(name: str, path: str, program: str, linux: str, options: list[str]) -> Optional[Found]:
    with tempfile.TemporaryDirectory() as scratch:
        os.chdir(scratch)
        status = ran(program, "sites", path, "here.o", *options)[0] if program else by_model(path, "here.o", options)
        here, there = set(), set()
        if status == 0:
            shutil.copy(path, "there.o")
            ran(linux, "--retpoline", "--rethunk", "--hacks=skylake", *(option for option in options if option != "--all-opcodes"), "there.o")
            here, there = places_in("here.o"), places_in("there.o")
        os.chdir("/")
    return Found(name, status, here, there)


def of_kind(places: set[str], kind: str) -> int:
    return sum(place.startswith(kind + " ") for place in places)


def main(folder: str, program: str, linux: str, *options: str) -> int:
    paths = sorted(it for it in Path(folder).rglob("*.o") if it.is_file())
    asked = [(str(path.relative_to(folder)), str(path), program, linux, list(options)) for path in paths]
    with multiprocessing.Pool(int(os.environ.get("JOBS") or os.cpu_count() or 1)) as pool:
        found = pool.starmap(look_at, asked, 1)
    given = [it for it in found if it.status == 0]
    others = [it for it in found if it.status not in (0, 2)]
    for it in others:
        print(f"{it.name}: status {it.status}")
    print(f"{len(found)} objects, {len(given)} of them with lists")
    apart = False
    for kind in LISTS:
        lone = [(it.name, place, who) for it in given for who, only in (("here", it.here - it.there), ("by Linux", it.there - it.here)) for place in sorted(only)]
        lone = [it for it in lone if it[1].startswith(kind + " ")]
        print(f"{kind}: {sum(of_kind(it.here & it.there, kind) for it in given)} places in both, {len(lone)} in one alone")
        for name, place, who in lone[:10]:
            print(f"  {name} {place} {who} alone")
        apart |= bool(lone)
    return 1 if apart or others or not given else 0


if __name__ == "__main__":
    sys.exit(main(*sys.argv[1:]))
