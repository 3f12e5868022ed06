#!/usr/bin/env bash
# Checks each object of a folder, and tells how many were accepted, warned of (by rule) and refused (by what the line says).
#   kernel-objects.sh FOLDER [--all-opcodes]
# The objects are FOLDER/objects/NAME.o, or where there is no such folder, those below FOLDER (*.o), as of a kernel's build before Linux's
# own objtool ran over them. With --all-opcodes `check` gets that option.
#
# Where they are there, the answers are compared with FOLDER/expected/NAME.status and NAME.lines (with --all-opcodes those of
# FOLDER/expected-all-opcodes), and the rows of accepted objects with FOLDER/linux-rows/NAME.rows, which has those of Linux's objtool in
# the form of `dump`.
#
# With OBJTOOL_LINUX=PROGRAM Linux's objtool is run on a copy of each object, and told is of how many it warns, by the text; and at which
# places its rows of accepted objects are different, by the cause. LINUX_OPTIONS are its options, `--orc` where they aren't given.
# (sites.sh compares site lists.)
#
# MODEL=1 asks the model (tools/model) in the place of the program. JOBS is how many processes share the objects, one a processor where
# it isn't given. Rows of `.altinstr_aux` aren't compared, for which Linux writes none. Ends with status 1 where something differs.
set -eu
. "$(dirname "$0")/../lib/prepare.sh"
needs "kernel objects" python3 readelf
[ $# -ge 1 ] && [ -d "$1" ] && { [ $# -eq 1 ] || [ "$*" = "$1 --all-opcodes" ]; } || { echo "usage: kernel-objects.sh FOLDER [--all-opcodes]"; exit 2; }
folder=$(cd "$1" && pwd)
program=
[ -n "${MODEL:-}" ] || program=$(built)
cd "$scratch"
PYTHONPATH=$root/tools/model python3 "$here/kernel_objects.py" "$folder" "$program" "${OBJTOOL_LINUX:-}" "${@:2}"
