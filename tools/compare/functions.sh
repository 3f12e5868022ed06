#!/usr/bin/env bash
# Reads the functions and relocations of objects, and compares the functions and their sizes with those of `nm -S`, and each
# relocation and the place that it names with those of `readelf -r`. functions.sh [FOLDER..]: besides the objects that gcc
# and the assembler make, those below the folders (*.o), as of a kernel's build.
set -eu
. "$(dirname "$0")/../lib/prepare.sh"
needs "functions" gcc as nm readelf python3
mapfile -t paths < <(objects_below "$@")
functions=$(over_libraries functions)
cd "$scratch"

cat >made.c <<'C'
extern int out(int, ...);
extern int shared;
static int calls;
const char *const words[] = {"one", "two", "three"};
static __attribute__((noinline)) int once(int a) { return out(a, words[a & 1]) + ++calls; }
int pick(int a, int b) {
    switch (a) {
    case 0: return once(b);
    case 1: return b << 3;
    case 2: return b % 7 + shared;
    case 3: return out(2, a, b) - b;
    case 4: return b ^ calls;
    case 5: return out(5, b) * 3;
    default: return out(3);
    }
}
__attribute__((weak)) int may_be(void) { return calls; }
int other_name(int a, int b) __attribute__((alias("pick")));
extern void stop(int) __attribute__((noreturn, cold));
int guarded(int a) { if (__builtin_expect(a < 0, 0)) { out(7, a); stop(a); } return once(a) + 1; }
C
cat >made.s <<'S'
	.text
	.type	outer, @function
outer:	nop
	.type	inner, @function
inner:	call	far + 3
	.size	inner, . - inner
	ret
	.size	outer, . - outer
	.type	empty, @function
empty:	ret
	.size	empty, 0
label:	jmp	*table(,%rax,8)
	.size	label, . - label
	.globl	late
	.type	late, @function
late:	jmp	outer - 2
	.size	late, . - late
	.set	alias, late
	.type	alias, @function
	.size	alias, 1
	.section .text.more,"ax",@progbits
	.type	more, @function
more:	lea	data + 8(%rip), %rax
	.reloc	more + 3, R_X86_64_NONE, data
	.reloc	more, R_X86_64_PC32, outer - 9
	ret
	.size	more, . - more
	.section .rodata,"a",@progbits
table:	.quad	outer, late + 1, 5, far
	.data
	.type	data, @function
data:	.quad	table + 16, data
	.size	data, 16
S
for flags in "-O2" "-O1 -ffunction-sections" "-O2 -fpic" "-O2 -g -fno-pic -mcmodel=kernel -freorder-blocks-and-partition"; do
    gcc $flags -c -o "gcc${#paths[@]}.o" made.c
    paths+=("$scratch/gcc${#paths[@]}.o")
done
as -o as.o made.s
paths+=("$scratch/as.o")

"$functions" "${paths[@]}" >told || { tail -n 20 told; exit 1; }
python3 "$here/functions_by_readelf.py" told
