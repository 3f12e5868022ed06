#!/usr/bin/env bash
# Parses objects that gcc and the assembler make, and compares how many sections, symbols and relocations each has with
# what `readelf` tells.
set -eu
. "$(dirname "$0")/../lib/prepare.sh"
needs "elf counts" gcc as readelf
counts=$(over_libraries elf_counts)
cd "$scratch"
mkdir sources objects

cat >sources/calls.c <<'C'
extern int out(int, ...);
extern int shared_state;
static int calls;
int common_state;
const char *const words[] = {"one", "two", "three"};
int (*const steps[])(int, ...) = {out, out};
static __attribute__((noinline)) int once(int a) { return out(a, words[a & 1]) + ++calls; }
int pick(int a, int b) {
    switch (a) {
    case 0: return once(b);
    case 1: return b << 3;
    case 2: return b % 7 + shared_state;
    case 3: return out(2, a, b) - b;
    case 4: return steps[b & 1](b);
    case 5: return b ^ common_state;
    default: return out(3);
    }
}
__attribute__((weak)) int may_be(void) { return calls; }
__attribute__((cold)) void fails(void) { out(9); __builtin_unreachable(); }
__attribute__((constructor)) static void first(void) { calls = 1; }
C
cat >sources/data.c <<'C'
struct node { struct node *next; unsigned long key; unsigned char tag; };
struct node last = {0, 1, 2}, *head = &last;
static struct node ring[2] = {{&ring[1], 1, 1}, {&ring[0], 2, 2}};
struct node zeros[512];
_Thread_local int own = 3;
_Thread_local int own_zero;
unsigned long total(const struct node *n) {
    unsigned long t = own + own_zero;
    for (n = n ? n : ring; n; n = n->next) t += n->key * (n->tag + 3ul) ^ (t >> 7);
    return t;
}
__attribute__((section(".init.text"))) int setup(void) { return head == &last; }
C
printf '' >sources/empty.c
cat >sources/inline.cc <<'C'
extern "C" int out(int, ...);
inline int shared(int a) { static int times; return out(a, ++times); }
template <class T> T twice(T a) { return a + a; }
struct base { virtual ~base() {} virtual int value() { return 1; } };
struct derived : base { int value() override { return shared(2); } };
int use(base *b) { return b->value() + twice(shared(1)) + int(twice(1.5)); }
base *make() { return new derived; }
int guarded() { try { return shared(3); } catch (int e) { return e; } }
C
cat >sources/groups.s <<'S'
	.section .text.first,"axG",@progbits,first,comdat
	.weak	first
	.type	first, @function
first:
	call	outside@PLT
	leaq	table(%rip), %rax
	movq	$absolute, %rbx
	movl	$first, %ecx
	ret
	.size	first, .-first
	.section .data.first,"awG",@progbits,first,comdat
	.quad	first, outside
	.section .text.second,"axG",@progbits,second,comdat
	.globl	second
second:
	jmp	first
	.section .rodata.table,"a",@progbits
table:
	.quad	first
	.long	second - .
	.section .bss.room,"aw",@nobits
	.zero	4096
	.comm	together,16,8
	.set	absolute,0x1234
	.globl	absolute
	.section .note.GNU-stack,"",@progbits
S
cat >sources/unwound.s <<'S'
	.text
	.globl	leaf
	.type	leaf, @function
leaf:
	.cfi_startproc
	pushq	%rbp
	.cfi_adjust_cfa_offset 8
	movq	%rsp, %rbp
	movq	outside@GOTPCREL(%rip), %rax
	call	*8(%rax)
	popq	%rbp
	.cfi_adjust_cfa_offset -8
	ret
	.cfi_endproc
	.size	leaf, .-leaf
	.section .strings,"aMS",@progbits,1
	.string	"one"
	.string	"two"
	.file	"unwound.s"
S
# more sections than the file header can count
awk 'BEGIN { for (k = 0; k < 66000; k++) printf "\t.section .data.p%d,\"aw\",@progbits\np%d:\t.byte 1\n", k, k
    print "\t.quad p0, p65999, outside" }' \
    >sources/many.s

for source in sources/*.c; do
    name=objects/$(basename "$source" .c)
    gcc -c -O2 -o "$name.o" "$source"
    gcc -c -O2 -ffunction-sections -fdata-sections -o "$name.split.o" "$source"
    gcc -c -O2 -g3 -fPIC -fcommon -o "$name.debug.o" "$source"
    gcc -c -O2 -ffreestanding -mcmodel=kernel -mno-red-zone -fno-pic -o "$name.kernel.o" "$source"
done
if command -v g++ >/dev/null; then
    g++ -c -O2 -o objects/inline.o sources/inline.cc
    g++ -c -O2 -g -ffunction-sections -o objects/inline.debug.o sources/inline.cc
fi
for source in sources/*.s; do
    as -o "objects/$(basename "$source" .s).assembled.o" "$source"
done

for object in objects/*.o; do
    sections=$(readelf -hW "$object" | awk '/Number of section headers:/ { gsub(/[()]/, ""); print $NF }')
    symbols=$(readelf -sW "$object" | awk '/^Symbol table .* contains/ { n += $(NF - 1) } END { print n + 0 }')
    relocs=$(readelf -rW "$object" | awk '/^Relocation section .* contains/ { n += $(NF - 1) } END { print n + 0 }')
    echo "$object $sections $symbols $relocs"
done >wanted

"$counts" objects/*.o >counted || { cat counted; exit 1; }
diff wanted counted || { echo "elf counts: readelf (<) and elf_objects (>) differ"; exit 1; }
echo "elf counts: $(wc -l <wanted) objects have the sections, symbols and relocations that readelf tells"
