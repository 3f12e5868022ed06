#!/usr/bin/env bash
# How fast an object of about 60 MB with 60,000 sections and 2,000,000 symbols is parsed, beside `readelf -SWs` over the
# same file: the least time of five runs of each. PARSE names a program that parses it; where it isn't given, programs/parse.rt.txt
# is proved and built.
set -eu
. "$(dirname "$0")/../lib/prepare.sh"
. "$root/tools/lib/speed.sh"
needs "parse speed" gcc python3 readelf
parse=$(over_libraries parse)
python3 "$here/inputs/many_symbols.py" "$scratch/large.o"
said=$("$parse" "$scratch/large.o") || { echo "$said"; exit 1; }
parsed=$(sed -n 's/^elf_objects: \([0-9]*\) us.*/\1/p' <<<"$said")
[ -n "$parsed" ] || { echo "parse speed: no time was told"; echo "$said"; exit 1; }
# Of readelf the processor time, which other work on the machine lengthens less than the time that passes.
listed=$(least 5 readelf -SWs "$scratch/large.o")
echo "$said"
echo "readelf -SWs: $listed us of processor time"
echo "parse speed: $(ratio %.1f "$listed" "$parsed") times as fast as readelf -SWs, $(stat -c %s "$scratch/large.o") bytes"
