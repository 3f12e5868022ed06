#!/usr/bin/env bash
# How long `unwind` walks a stack of 100,000 frames, beside reading the same image and walking none of it: the processor time
# of each, the least of three runs. Each frame is one of a function that has pushed a register, called by itself.
set -eu
. "$(dirname "$0")/../lib/prepare.sh"
. "$root/tools/lib/speed.sh"
needs "walk speed" as ld awk gcc python3
program=$(built)
frames=100000

cd "$scratch"
printf '\t.globl f\n\t.type f, @function\nf:\tpush %%rbx\n\tpop %%rbx\n\tret\n\t.size f, .-f\n' | as -o assembled.o -
ld -r -o in.o assembled.o
"$program" check in.o out.o
# The word above each pushed register is an address behind the push; the last one is outside.
image() {
    awk -v ip="$1" -v frames="$frames" 'BEGIN {
        printf "regs %s 8000 5\nplace 1 1000\nmem 8000 ", ip
        for (i = 1; i < frames; i++) printf "00000000000000000210000000000000"
        print "0000000000000000000000a000000000"
    }'
}
image 1001 >walked.txt
image 9001 >unwalked.txt
lines=$("$program" unwind out.o walked.txt | wc -l)
[ "$lines" -eq $((frames + 1)) ] || { echo "walk speed: $lines lines"; exit 1; }

walked=$(least 3 "$program" unwind out.o walked.txt)
unwalked=$(least 3 "$program" unwind out.o unwalked.txt)
echo "unwind: $walked us of processor time for $frames frames, $unwalked us for an image of the same size and none"
echo "walk speed: $(ratio %.1f "$walked" "$unwalked") times as long as reading the image alone"
