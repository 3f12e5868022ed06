#!/usr/bin/env bash
# How long it takes to read what an object says of its code, and to look it up for each of its instructions, beside
# `readelf -SWsr` over the same file: 5 MB of text, 60,000 functions, 400,000 relocations, 20,000 alternatives. And then the
# same where 1,000 jumps share a table of 1,000,000 entries. Of each the least time of five runs. READERS names a program that reads
# it; where it isn't given, programs/readers.rt.txt is proved and built.
set -eu
. "$(dirname "$0")/../lib/prepare.sh"
. "$root/tools/lib/speed.sh"
needs "readers speed" gcc python3 readelf
readers=$(over_libraries readers)
python3 "$here/inputs/special_code.py" "$scratch/much.o" >"$scratch/much"
python3 "$here/inputs/special_code.py" "$scratch/shared.o" shared >"$scratch/shared"
for object in much shared; do
    file=$scratch/$object.o
    said=$("$readers" "$file") || { echo "$said"; exit 1; }
    echo "$said"
    read -r built asked <<<"$(sed -n 's/^readers: \([0-9]*\) us to read, \([0-9]*\) us.*/\1 \2/p' <<<"$said")"
    [ -n "$asked" ] || { echo "readers speed: no time was told"; exit 1; }
    # Of readelf the processor time, which other work on the machine lengthens less than the time that passes.
    listed=$(least 5 readelf -SWsr "$file")
    echo "readelf -SWsr: $listed us of processor time, $(stat -c %s "$file") bytes, $(cat "$scratch/$object")"
    echo "readers speed: reading takes $(ratio %.2f "$built" "$listed") of the time of readelf -SWsr, with all look-ups $(ratio %.2f $((built + asked)) "$listed")"
done
