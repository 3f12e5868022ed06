#!/usr/bin/env bash
# Compares the direct calls and branches that `show` lists of objects with those that `objdump -dr` and `readelf` tell: each leads where
# its target says, has the edges that it asks for, and no other.
#   branches.sh FOLDER..
# The objects are those below the folders (*.o), as of a kernel's build. Ends with status 1 where a branch is different.
set -eu
. "$(dirname "$0")/../lib/prepare.sh"
needs "branches" objdump readelf python3
[ $# -gt 0 ] || { echo "usage: branches.sh FOLDER.., with objects below the folders"; exit 2; }
mapfile -t paths < <(objects_below "$@")
[ "${#paths[@]}" -gt 0 ] || { echo "branches: no objects"; exit 2; }
objtool=$(built)
python3 "$here/branches/compare.py" "$objtool" "${paths[@]}"
