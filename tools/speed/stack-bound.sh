#!/usr/bin/env bash
# How much stack the built program can take, read off its code: no call goes through a pointer, the only functions that call
# themselves are libraries' sorts, trees and command definitions, whose depth is known, and so the deepest chain of calls has
# a length. Ends with status 1 where that isn't so, or it is above 128 KiB.
set -eu
. "$(dirname "$0")/../lib/prepare.sh"
needs "stack bound" python3 objdump
program=$(built)
python3 "$here/stack_bound.py" "$program" 131072
