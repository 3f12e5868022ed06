#!/usr/bin/env bash
# Compares what x86_decode decodes by each opcode map, and the moves of stack_state, with those of the model (tools/model): each
# opcode with each ModRM byte behind prefixes by lot, bytes by lot, and each operation from a grid of states.
#   decoding.sh [TIMES]
# TIMES is how many lots of prefixes are drawn, 1 where it isn't given. DECODING and MOVES name programs that print what is decoded, and
# the moves; where they aren't given, those of `programs` are proved and built. Ends with status 1 where something is different.
set -eu
. "$(dirname "$0")/../lib/prepare.sh"
needs "decoding" python3
moves=$(over_libraries moves)
decoding=$(over_libraries decoding)
python3 "$root/tools/model/moves.py" "$moves"
for seed in $(seq "${1:-1}"); do
    for options in "" --all-opcodes; do python3 "$root/tools/model/decoding.py" "$decoding" "$seed" $options; done
done
