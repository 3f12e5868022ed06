#!/usr/bin/env bash
# Compares what `dump` says of a small object, of which one byte of the file header or of a section header has each other value in
# turn, with what the model (tools/model) reads: 97,920 objects. Ends with status 1 where an answer is different.
#   changed-headers.sh
set -eu
. "$(dirname "$0")/../lib/prepare.sh"
needs "changed headers" python3
program=$(built)
# Each object is a file, which is quick in memory.
[ ! -w /dev/shm ] || export TMPDIR=/dev/shm
python3 "$here/changed-headers/compare.py" "$program" "$root/tests/commands/common/frame.object"
