#!/usr/bin/env bash
# How long it takes to read the type of each section and symbol, and to compare each name, in an object of about 64 MB
# whose 5,000 sections and 100,000 symbols share names of megabytes, the least of five runs, beside `readelf -SW` over the same file.
# NAMES names a program that reads them; where it isn't given, programs/names.rt.txt is proved and built.
set -eu
. "$(dirname "$0")/../lib/prepare.sh"
. "$root/tools/lib/speed.sh"
needs "name speed" gcc python3 readelf timeout
names=$(over_libraries names)
python3 "$here/inputs/long_names.py" "$scratch/names.o"
said=$("$names" "$scratch/names.o") || { echo "$said"; exit 1; }
echo "$said"
listed=$(least 1 timeout 120 readelf -SW "$scratch/names.o")
echo "readelf -SW: $listed us of processor time (it is stopped after 120 seconds), $(stat -c %s "$scratch/names.o") bytes"
