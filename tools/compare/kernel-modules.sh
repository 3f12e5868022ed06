#!/usr/bin/env bash
# Prints the ORC rows of kernel modules by `dump`, and compares them row by row with what Linux's own objtool prints of
# the same modules.
#   kernel-modules.sh           fetches Debian's newest cloud kernel 6.12
#   kernel-modules.sh FOLDER    takes the modules below a folder (.ko, .ko.xz)
# OBJTOOL_LINUX names Linux's objtool; where it isn't given, that of Debian's newest kernel 6.12 is fetched. It isn't part of `.ci/run`.
set -eu
. "$(dirname "$0")/../lib/prepare.sh"
. "$root/tools/lib/linux.sh"
needs "kernel modules" xz python3
program=$(built)
if [ $# -ge 1 ]; then
    modules=$(cd "$1" && pwd)
else
    image=$(newest '^linux-image-6\.12.*-cloud-amd64-unsigned$')
    fetched "${image:?no package of a kernel 6.12}"
    modules=$scratch/fetched/lib/modules
    [ -d "$modules" ] || modules=$scratch/fetched/usr/lib/modules
fi
linux=$(linux_objtool)
cd "$scratch"
python3 "$here/kernel_modules.py" "$program" "$linux" "$modules"
