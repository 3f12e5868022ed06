"""Made-up objects that are joined by `ld -r`, as those of a kernel are: they call one another, and of definitions of one name one stays."""

import os
import random
import subprocess
import tempfile

from check import check
from commands import DONE
from generate import MOST_FUNCTIONS, Member, built
from layout import Layout, TooFar
from rules import Options

TURNS = 6
LINKER = "ld", "-r", "-z", "muldefs"
# Names of which several of the objects may have a definition, and names of code of no function that each may have.
SHARED = "shared_one", "shared_two"
CALLED = "bare_one", "bare_two", "int80_emulation"


def joined_object(seed) -> bytes:
    """Two to eight objects joined; where they can't be, the first of them."""
    rng = random.Random(f"{seed}/joined")
    count = rng.choice((2, 2, 2, 3, 3, 4, 6, 8))
    objects = []
    for number in range(count):
        others = [f"f{i}" for i in range(MOST_FUNCTIONS * count) if i // MOST_FUNCTIONS != number]
        member = Member(MOST_FUNCTIONS * number, (*rng.sample(others, 3), *rng.sample(CALLED, 1)), SHARED)
        objects.append(member_object(f"{seed}/{number}", member))
    return linked(objects)


def member_object(seed: str, member: Member) -> bytes:
    """An object that is in order alone, if one of some that are made is: else most of those that are joined would be wrong by one of them."""
    data = b""
    for turn in range(TURNS):
        try:
            data = Layout(built(f"{seed}/{turn}", member=member), f"{seed}/{turn}").object()
        except TooFar:
            continue
        if check(data, Options(link=True)).status == DONE:
            break
    return data


def linked(objects: list[bytes]) -> bytes:
    with tempfile.TemporaryDirectory(dir="/dev/shm" if os.access("/dev/shm", os.W_OK) else None) as folder:
        names = [f"{number}.o" for number in range(len(objects))]
        for name, data in zip(names, objects):
            with open(f"{folder}/{name}", "wb") as file:
                file.write(data)
        ended = subprocess.run([*LINKER, "-o", "joined.o", *names], cwd=folder, capture_output=True, check=False)
        if ended.returncode:
            return objects[0]
        with open(f"{folder}/joined.o", "rb") as file:
            return file.read()
