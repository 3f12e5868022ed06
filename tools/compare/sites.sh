#!/usr/bin/env bash
# Compares the site lists that `sites` writes of objects with those of Linux's own objtool, place by place.
#   sites.sh FOLDER [OPTION..]
# The objects are those below the folder (*.o), as of a kernel's build before Linux's objtool ran over them. Both programs get the
# options, as --module. Linux's objtool is the one that OBJTOOL_LINUX names, or else Debian's (tools/lib/linux.sh). MODEL=1 asks the model
# (tools/model) in the place of the program. JOBS is how many processes share the objects, one a processor where it isn't given.
#
# Told is how many objects were given lists, how many places each list has, and for each list the places that one of both has alone. Ends
# with status 1 where there is such a place, or no object was given lists.
set -eu
. "$(dirname "$0")/../lib/prepare.sh"
. "$root/tools/lib/linux.sh"
needs "site lists" python3 readelf
[ $# -ge 1 ] && [ -d "$1" ] || { echo "usage: sites.sh FOLDER [OPTION..]"; exit 2; }
folder=$(cd "$1" && pwd)
linux=$(linux_objtool)
program=
[ -n "${MODEL:-}" ] || program=$(built)
cd "$scratch"
PYTHONPATH=$root/tools/model python3 "$here/linux_sites.py" "$folder" "$program" "$linux" "${@:2}"
