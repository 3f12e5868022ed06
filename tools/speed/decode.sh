#!/usr/bin/env bash
# How fast 16 MB of code are decoded by each opcode map, beside `objdump -d` over the same bytes. The code is what gcc makes of a few
# functions, again and again. DECODE names a program that decodes it; where it isn't given, programs/decode.rt.txt is proved and built.
set -eu
. "$(dirname "$0")/../lib/prepare.sh"
needs "decode speed" gcc objcopy objdump
decode=$(over_libraries decode)

cat >"$scratch/code.c" <<'C'
struct node { struct node *next; unsigned long key; unsigned char tag; };
unsigned long total(const struct node *n) {
    unsigned long t = 0;
    for (; n; n = n->next) t += n->key * (n->tag + 3ul) ^ (t >> 7);
    return t;
}
int find(const unsigned *xs, int n, unsigned x) {
    int lo = 0, hi = n;
    while (lo < hi) { int mid = lo + (hi - lo) / 2; if (xs[mid] < x) lo = mid + 1; else hi = mid; }
    return lo < n && xs[lo] == x ? lo : -1;
}
void copy(char *to, const char *from, unsigned long n) { for (unsigned long i = 0; i < n; i++) to[i] = from[i] ^ (char)i; }
extern int out(int, ...);
int pick(int a, int b) {
    switch (a) {
    case 0: return out(1, b);
    case 1: return b << 3;
    case 2: return b % 7;
    case 3: return out(2, a, b) - b;
    case 4: return b > 9 ? -b : b;
    default: return out(3);
    }
}
unsigned hash(const unsigned char *p, unsigned long n) {
    unsigned h = 2166136261u;
    while (n--) h = (h ^ *p++) * 16777619u;
    return h;
}
C
gcc -O2 -mno-sse -mno-mmx -mno-80387 -mgeneral-regs-only -ffreestanding -fno-pic -mcmodel=kernel -c -o "$scratch/code.o" "$scratch/code.c"
objcopy -O binary -j .text "$scratch/code.o" "$scratch/once"
size=$(stat -c %s "$scratch/once")
cp "$scratch/once" "$scratch/body"
while [ $(($(stat -c %s "$scratch/body") * 2)) -le 16777216 ]; do
    cat "$scratch/body" "$scratch/body" >"$scratch/twice"
    mv "$scratch/twice" "$scratch/body"
done
while [ $(($(stat -c %s "$scratch/body") + size)) -le 16777216 ]; do
    head -c $(((16777216 - $(stat -c %s "$scratch/body")) / size * size)) "$scratch/body" >"$scratch/more"
    cat "$scratch/more" >>"$scratch/body"
done

"$decode" "$scratch/body"

before=$(date +%s%N)
count=$(objdump -w -D -b binary -m i386:x86-64 "$scratch/body" | grep -c '^ *[0-9a-f]*:')
after=$(date +%s%N)
micros=$(((after - before) / 1000))
echo "objdump: $count lines in $micros us, $((count * 1000000 / micros)) a second"
