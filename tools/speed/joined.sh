#!/usr/bin/env bash
# What `check` takes on one large object beside Linux's own objtool (`--orc --link`), in one run: processor time, memory, and by callgrind
# how many instructions are executed for each instruction of text.
#   joined.sh FOLDER [COPIES..]
# The object is made by `ld -r -z muldefs` of those objects of the folder that `check` accepts, alone and joined; of a function that two of
# them define nothing calls one, so rule 14 isn't asked for (`--no-unreachable`). Where COPIES are given, others are made of so many copies
# of it, each copy's symbols with a prefix of their own. OBJTOOL_LINUX names Linux's objtool; where it isn't given, that of Debian's newest
# kernel 6.12 is fetched. Each time is the least of five runs, in turn with the other program's. It is a benchmark: nothing is asked of what it
# measures.
set -eu
. "$(dirname "$0")/../lib/prepare.sh"
. "$root/tools/lib/linux.sh"
needs "joined objects" gcc python3 ld objcopy objdump readelf valgrind
[ $# -ge 1 ] || { echo "usage: joined.sh FOLDER [COPIES..]"; exit 2; }
folder=$(cd "$1" && pwd)
linux=$(linux_objtool)
program=$(built)
cd "$scratch"
PYTHONPATH=$root/tools/lib:$here/inputs PROGRAM=$program LINUX=$linux FOLDER=$folder python3 - "${@:2}" <<'PYTHON'
import glob, os, re, shutil, subprocess, sys

from copies import joined, renamed, text_bytes
from measure import once

program, linux = os.environ["PROGRAM"], os.environ["LINUX"]
DEFINED_TWICE = ["-z", "muldefs"]


def check(object):
    return [program, "check", object, "out.o", "--all-opcodes", "--no-unreachable"]


def is_accepted(objects):
    return subprocess.run(check(joined(objects, "part.o", *DEFINED_TWICE)), stdout=subprocess.DEVNULL, stderr=subprocess.DEVNULL).returncode == 0


def accepted(kept, objects):
    """Those kept so far, with those of some more that are accepted together with them, as halves find these."""
    if is_accepted(kept + objects):
        return kept + objects
    half = len(objects) // 2
    return accepted(accepted(kept, objects[:half]), objects[half:]) if half else kept


def instructions(object):
    """The instructions of its text, as objdump lists them."""
    listed = subprocess.run(["objdump", "-d", "-w", object], capture_output=True, text=True, check=True).stdout
    return len(re.findall(r"^\s+[0-9a-f]+:\t", listed, re.M))


def executed(words):
    """How many instructions a run executes."""
    said = subprocess.run(["valgrind", "--tool=callgrind", "--callgrind-out-file=counts", *words], stdout=subprocess.DEVNULL, stderr=subprocess.PIPE, text=True).stderr
    return int(re.search(r"Collected : (\d+)", said)[1])


def measured(name, object):
    theirs_words = [linux, "--orc", "--link", "own.o"]
    ours, theirs = [], []
    for _ in range(5):
        ours.append(once(check(object)))
        shutil.copy(object, "own.o")
        theirs.append(once(theirs_words))
    ours, theirs = min(ours), min(theirs)
    count = instructions(object)
    shutil.copy(object, "own.o")
    each = [executed(words) / count for words in (check(object), theirs_words)]
    print(f"{name}: {count} instructions, {text_bytes(object)} bytes of text, {os.path.getsize(object)} bytes")
    print(f"  check: {ours.seconds:.3f} s, {ours.memory} KiB, {each[0]:.0f} instructions an instruction, status {ours.status}")
    print(f"  objtool --orc --link: {theirs.seconds:.3f} s, {theirs.memory} KiB, {each[1]:.0f} instructions an instruction, status {theirs.status}")
    print(f"  check takes {ours.seconds / theirs.seconds:.2f} of its processor time")


alone = [it for it in sorted(glob.glob(os.environ["FOLDER"] + "/*.o")) if is_accepted([it])]
objects = accepted([], alone)
one = joined(objects, "one.o", *DEFINED_TWICE)
measured(f"{len(objects)} objects joined", one)
for copies in map(int, sys.argv[1:]):
    measured(f"{copies} copies of them", joined([renamed(one, f"c{k}_", f"copy{k}.o") for k in range(copies)], "many.o"))
PYTHON
