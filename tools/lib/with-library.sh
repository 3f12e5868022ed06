#!/usr/bin/env bash
# Makes a folder with one program and the libraries of this repository that it stands on, with what checks of them left.
# with-library.sh FOLDER NAME FILE: FILE is the program; its first line says what it uses, `// uses: LIBRARY ..`.
# The program is then run by `rt run` or `rt try` in FOLDER/crates/NAME. One program after the other may be laid in one folder.
set -eu
root=$(cd "$(dirname "$0")/../.." && pwd)
. "$root/tools/lib/crates.sh"
folder=$1 name=$2 file=$3
uses=$(sed -n '1s|^// uses: ||p' "$file")
mkdir -p "$folder/crates/$name/src"
cp "$file" "$folder/crates/$name/src/main.rt"
{
    echo "$name: $uses"
    needed $uses
} >"$folder/crates.txt"
for library in $(sed '1d; s/[ :].*//' "$folder/crates.txt"); do
    [ -d "$folder/crates/$library" ] || tar -C "$root/crates" --exclude=out/incremental --exclude="out/*_tests*" -cf - "$library" | tar -C "$folder/crates" -xf -
done
