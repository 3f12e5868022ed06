#!/usr/bin/env bash
# How fast `check` goes over an object of 16 MB of straight code, in which the depth changes 850,000 times, beside
# `objdump -d` over the same object: the processor time of each.
set -eu
. "$(dirname "$0")/../lib/prepare.sh"
. "$root/tools/lib/speed.sh"
needs "check speed" as ld objdump gcc python3
program=$(built)

{
    printf '\t.text\n\t.globl leaf\n\t.type leaf, @function\nleaf:\n'
    printf '\t.rept 425000\n'
    printf '\tpush %%rbx\n\tmov %%rax, 0x18(%%rdi)\n\tlea 0x3(%%rax,%%rbx,4), %%rcx\n\timul %%rcx, %%rdx\n'
    printf '\txor $0x12345678, %%esi\n\tmovabs $0x123456789abcdef0, %%r8\n\tadd %%r8, %%rax\n\tpop %%rbx\n'
    printf '\t.endr\n\tret\n\t.size leaf, .-leaf\n'
} >"$scratch/leaf.s"
as -o "$scratch/assembled.o" "$scratch/leaf.s"
ld -r -o "$scratch/leaf.o" "$scratch/assembled.o"

checked=$(least 3 "$program" check "$scratch/leaf.o" "$scratch/checked.o")
[ -s "$scratch/checked.o" ] || { echo "check speed: the object isn't accepted"; exit 1; }
listed=$(least 3 objdump -d "$scratch/leaf.o")
echo "check: $checked us of processor time for $(stat -c %s "$scratch/leaf.o") bytes; OUT has $(stat -c %s "$scratch/checked.o") bytes"
echo "objdump -d: $listed us"
echo "check speed: $(ratio %.1f "$listed" "$checked") times as fast as objdump -d"
