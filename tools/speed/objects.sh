#!/usr/bin/env bash
# How long the whole `check` takes and how much memory, beside Linux's own objtool (`--orc`) on the same objects: on each
# object of a folder, and on one made of all of them by `ld -r`.
#   objects.sh FOLDER
# OBJTOOL_LINUX names Linux's objtool; where it isn't given, that of Debian's newest kernel 6.12 is fetched. The processor time of each
# is the least of three runs, the memory what that run held. It isn't part of `.ci/run`.
set -eu
. "$(dirname "$0")/../lib/prepare.sh"
. "$root/tools/lib/linux.sh"
needs "object speed" ld gcc python3
[ $# -eq 1 ] || { echo "usage: objects.sh FOLDER"; exit 2; }
folder=$(cd "$1" && pwd)
linux=$(linux_objtool)
program=$(built)
cd "$scratch"
ld -r -o all.o "$folder"/*.o 2>/dev/null || rm -f all.o
PYTHONPATH=$root/tools/lib PROGRAM=$program LINUX=$linux FOLDER=$folder python3 - <<'PYTHON'
import glob, os, shutil

from measure import least

program, linux = os.environ["PROGRAM"], os.environ["LINUX"]
objects = sorted(glob.glob(os.environ["FOLDER"] + "/*.o"))
own, others = [], []
for object in objects + glob.glob("all.o"):
    ours = least(["timeout", "60", program, "check", object, "out.o"])
    theirs = least(["timeout", "60", linux, "--orc", "own.o"], before=lambda: shutil.copy(object, "own.o"))
    print(f"{os.path.basename(object)}: check {ours.seconds:.3f} s, {ours.memory} KiB; objtool --orc {theirs.seconds:.3f} s, {theirs.memory} KiB")
    own.append(ours)
    others.append(theirs)
slower = sum(one.seconds > other.seconds for one, other in zip(own, others))
own, others = own[: len(objects)], others[: len(objects)]
times = sum(it.seconds for it in own) / max(sum(it.seconds for it in others), 0.001)
most = max(it.memory for it in own), max(it.memory for it in others)
print(f"object speed: check takes {times:.2f} of the processor time of objtool --orc over {len(objects)} objects, slower on {slower}; at most {most[0]} KiB beside {most[1]}")
PYTHON
