#!/usr/bin/env bash
# Compares the built program with the model (tools/model), an independent reading of the definitions, over made-up objects: status,
# lines, what is written, and its rows by `dump`.
#   made-up-objects.sh [COUNT [SEED [PROGRAM]]]
# COUNT is 1000 and SEED is 1 where they aren't given; PROGRAM is what tools/build.sh builds. The same COUNT and SEED make the same objects.
# PYTHON names the interpreter, python3 where it isn't given. JOBS is how many processes share them,
# one a processor where it isn't given. KEPT names the folder in which
# objects with different answers are kept. OBJECTS names a folder of real objects, NAME.o, that are changed by lot too. Ends with
# status 1 where an answer is different.
set -eu
. "$(dirname "$0")/../lib/prepare.sh"
python=${PYTHON:-python3}
needs "made-up objects" "$python" ld
count=${1:-1000} seed=${2:-1} program=${3:-}
kept=${KEPT:-${TMPDIR:-/tmp}/made-up-objects}
cd "$root"
[ -n "$program" ] || program=$(built)
"$python" tools/model/worked.py
"$python" tools/model/made_up.py "$program" "$count" "$seed" "$kept" ${OBJECTS:+"$OBJECTS"}
