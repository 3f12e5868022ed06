#!/usr/bin/env bash
# README's example, as the system's assembler makes an object of it, which `ld -r` gives a section symbol: what `check --backtrace` and
# `dump` print is what README says, without the second `pop` and with it; and `readelf` finds the sections that were added, with these rows. The names file
# that is shipped changes nothing of it.
set -eu
. "$(dirname "$0")/../lib/prepare.sh"
needs "readme example" as ld readelf awk cmp
program=$(built)
failed() { echo "readme example: FAILED, $*"; exit 1; }
cd "$scratch"

# block N: the Nth block of code in README's section of the example.
block() { sed -n '/^## A warning, and what to do next$/,/^## /p' "$root/README.md" | awk -v wanted="$1" '/^```/ { fences++; next } fences == 2 * wanted - 1'; }
# object NAME: what the assembler and the linker make of the code on the standard input.
object() {
    { printf '\t.text\n\t.globl leaf\n\t.type leaf, @function\n' && cat && printf '\t.size leaf, .-leaf\n'; } | as -o assembled.o -
    ld -r -o "$1" assembled.o
}
block 1 | object leaf.o
printed=$("$program" check leaf.o checked.o) && [ -z "$printed" ] || failed "check prints $printed"
[ "$("$program" dump checked.o)" = "$(block 3)" ] || failed "dump prints other rows than README has"
mkdir unpopped
block 1 | awk '!/pop/ || ++pops != 2' | object unpopped/leaf.o
status=0
printed=$(cd unpopped && "$program" check leaf.o checked.o --backtrace) || status=$?
[ "$status" = 1 ] && [ ! -e unpopped/checked.o ] && [ "$printed" = "$(block 2)" ] || failed "without the second pop the status is $status, and check prints $printed"
echo "readme example: check and dump print what README says"

# The rows of the checked object, each by its offset in hexadecimal and its six bytes.
sections=$(readelf -SW checked.o)
for section in .orc_unwind .orc_unwind_ip .rela.orc_unwind_ip; do
    grep -q " $section " <<<"$sections" || failed "no section $section"
done
rows=$(paste -d ' ' \
    <(readelf -rW checked.o | awk '/R_X86_64_PC32/ { print $NF }') \
    <(readelf -x .orc_unwind checked.o | awk '/^  0x/ { for (i = 2; i <= 5 && $i ~ /^[0-9a-f]+$/; i++) printf "%s", $i }' | fold -w 12) | tr '\n' ';')
wanted='0 080000000502;1 100000000502;2 180000000502;4 100000000502;5 080000000502;6 000000000000;'
[ "$rows" = "$wanted" ] || failed "readelf shows the rows $rows"
"$program" check --names="$root/share/linux.names" leaf.o named.o && cmp checked.o named.o || failed "the names that are shipped change the rows"
echo "readme example: six rows as readelf shows them, also with the names that are shipped"
