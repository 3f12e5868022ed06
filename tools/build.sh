#!/usr/bin/env bash
# Proves and builds the program, and prints where it lies. Only what it needs is proved, with all processors (lib/prove.sh);
# what isn't proved isn't built. Where nothing has changed since it was built, that is all that is found out.
set -eu
root=$(cd "$(dirname "$0")/.." && pwd)
out=$root/crates/objtool/out
program=$out/objtool
scratch=$(mktemp -d)
prover=
trap '[ -z "$prover" ] || kill "$prover" 2>/dev/null || true; rm -rf "$scratch"' EXIT
trap 'exit 1' INT TERM HUP

# The sums of what the program was proved from and of the program itself, as of the last call.
proved=$out/objtool.proved
sums() { echo "$1" && sha256sum <"$program"; }
made_of=$(LAY=1 "$root/tools/lib/prove.sh" "$scratch/copy" objtool)
if [ ! -x "$program" ] || [ ! -e "$proved" ] || [ "$(sums "$made_of")" != "$(cat "$proved")" ]; then
    "$root/tools/lib/prove.sh" "$scratch/copy" objtool &
    prover=$!
    wait "$prover" || exit 1
    mkdir -p "$out"
    rm -f "$proved"
    # (Rattle's own compiler may leave a program to LLVM alone)
    for made in objtool objtool.by-rattle; do
        rm -f "$out/$made"
        [ ! -e "$scratch/copy/crates/objtool/out/$made" ] || cp "$scratch/copy/crates/objtool/out/$made" "$out/$made"
    done
    sums "$made_of" >"$proved"
fi
echo "$program"
