#!/usr/bin/env bash
# Checks what gcc compiles from tools/test/gcc-objects/*.c, as the kernel's code is compiled, once as it is and once with frame
# pointers: each object is accepted, and at each address of each function the frame's top, and where rbp is saved, are those
# that gcc tells in its own .eh_frame. What `dump` prints of a row is what `readelf` shows of its six bytes. With debugging
# information in compressed sections each has the same rows, though relocations there lie behind what the sections hold.
set -eu
. "$(dirname "$0")/../lib/prepare.sh"
. "$root/tools/lib/compile.sh"
needs "gcc objects" gcc readelf python3
program=$(built)
cd "$scratch"
compile_all .
names=()
for object in *.o; do
    name=${object%.o}
    options=()
    [ "$name" = "${name%.framed}" ] || options=(--fp)
    "$program" check "$object" checked "${options[@]}" >lines || { echo "gcc objects: $name: $(head -n 1 lines)"; exit 1; }
    "$program" dump checked >"$name.rows"
    readelf -x .orc_unwind -rW checked >"$name.bytes"
    readelf --debug-dump=frames-interp "$object" >"$name.frames"
    readelf -rW "$object" >"$name.relocs"
    readelf -sW "$object" >"$name.symbols"
    names+=("$name")
done
python3 "$here/gcc-objects/compare.py" "${names[@]}"
mkdir compressed
compile_all compressed -g -gz
for name in "${names[@]}"; do
    "$program" check "compressed/$name.o" checked >lines || { echo "gcc objects: $name, compressed: $(head -n 1 lines)"; exit 1; }
    "$program" dump checked | cmp - "$name.rows"
done
echo "gcc objects: ${#names[@]} have the same rows with compressed debugging information"
