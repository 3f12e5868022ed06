#!/usr/bin/env bash
# Compares the lengths that x86_decode gives with those of `objdump -d`, over the code of programs and libraries.
#   instruction-lengths.sh [--all-opcodes] FILE..
# With --all-opcodes the whole opcode map decodes it, else the base map.
# Tells how many instructions objdump knows, how many are decoded with another length, and which are refused, by their names. DECODING
# names a program that prints what is decoded; where it isn't given, programs/decoding.rt.txt is proved and built. Ends with status 1
# where a length is different.
set -eu
. "$(dirname "$0")/../lib/prepare.sh"
needs "instruction lengths" python3 objdump
options=()
[ "${1-}" != --all-opcodes ] || { options=("$1"); shift; }
[ $# -gt 0 ] || { echo "usage: instruction-lengths.sh [--all-opcodes] FILE.."; exit 2; }
decoding=$(over_libraries decoding)
status=0
for file; do python3 "$here/instruction_lengths.py" "$decoding" "${options[@]}" "$file" || status=1; done
exit $status
