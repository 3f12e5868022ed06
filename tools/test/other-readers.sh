#!/usr/bin/env bash
# Other tools read what `cfi` and `sites` write, and tell the same as `cfa` and `list`; and `find` on a table of all objects tells the rows
# that `dump` prints of each.
#   other-readers.sh            objects that gcc compiles from tools/test/gcc-objects/*.c, each with and without frame pointers
#   other-readers.sh FOLDER     the objects FOLDER/*.o that `check --all-opcodes` accepts
# Of each object's call frame information the rules of `readelf --debug-dump=frames-interp`, and that neither it nor `objdump
# --dwarf=frames` complains; of its site lists the relocations that `readelf -r` shows; of the merged table the row at each row's address,
# and one before and behind. `.eh_frame` that is there already is taken away first. Ends with status 1 where something differs.
set -eu
. "$(dirname "$0")/../lib/prepare.sh"
. "$root/tools/lib/compile.sh"
needs "other readers" gcc readelf objdump objcopy python3
program=$(built)
if [ $# -ge 1 ]; then
    folder=$(cd "$1" && pwd)
else
    folder=$scratch/objects
    mkdir "$folder"
    compile_all "$folder" -mindirect-branch=thunk-extern -mindirect-branch-register -mfunction-return=thunk-extern
fi
cd "$scratch"
python3 "$here/other_readers.py" "$program" "$folder"
