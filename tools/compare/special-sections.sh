#!/usr/bin/env bash
# Reads the special sections of objects, and compares how many entries of each kind there are with what `readelf` tells of
# their sections. special-sections.sh [OBJECT..]: the objects, as those of a kernel's build; with none, one that the
# assembler makes.
set -eu
. "$(dirname "$0")/../lib/prepare.sh"
needs "special sections" as readelf python3
paths=()
for object; do paths+=("$(readlink -f "$object")"); done
counts=$(over_libraries special_counts)
cd "$scratch"

if [ ${#paths[@]} -eq 0 ]; then
    cat >made.s <<'S'
	.text
start:	nop
	nop
	ret
	.section .altinstr_replacement,"ax",@progbits
other:	nop
	.section .altinstructions,"a",@progbits
	.long	start - .
	.long	other - .
	.word	5, 0
	.byte	2, 1
	.section __jump_table,"aw",@progbits
	.long	start - ., start - .
	.quad	key
	.section __ex_table,"a",@progbits
	.long	start - ., start - ., 0
	.long	start + 1 - ., start - ., 0
	.section .discard.unwind_hints,"",@progbits
	.long	start
	.word	8
	.byte	5, 2, 0, 0, 0, 0
	.section .discard.reachable,"",@progbits
	.long	start + 3
	.section .discard.retpoline_safe,"",@progbits
	.quad	start, start + 2
S
    as -o made.o made.s
    paths=("$scratch/made.o")
fi

python3 - "${paths[@]}" >wanted <<'P'
import re, subprocess, sys

TABLES = [(".altinstructions", 14), ("__jump_table", 16), ("__ex_table", 12), (".discard.unwind_hints", 12)]
LISTS = [".discard.reachable", ".discard.unreachable", ".discard.retpoline_safe"]

for path in sys.argv[1:]:
    sizes = {}
    listed = subprocess.run(["readelf", "-SW", path], capture_output=True, text=True, check=True).stdout
    for name, size in re.findall(r"^ *\[ *\d+\] (\S+) +\S+ +\S+ +\S+ +([0-9a-f]+) ", listed, re.M):
        sizes[name] = sizes.get(name, 0) + int(size, 16)
    counts = [sizes.get(name, 0) // entry for name, entry in TABLES]
    counts += [sizes.get(".rela" + name, 0) // 24 for name in LISTS]
    print(path, *counts)
P
"$counts" "${paths[@]}" >said || { cat said; exit 1; }
for object in "${paths[@]}"; do grep -F "$object " said; done >counted

# Of an object that is refused only the fault is told: it is printed, and not compared.
grep ': entry ' counted || true
grep -v ': entry ' counted | cut -d ' ' -f 1-8 >read_counts
while read -r path _; do grep -F "$path " wanted; done <read_counts >wanted_counts
diff wanted_counts read_counts || { echo "special sections: readelf (<) and special_sections (>) differ"; exit 1; }
echo "special sections: $(wc -l <read_counts) of ${#paths[@]} objects have the entries that readelf tells"
