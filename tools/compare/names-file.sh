#!/usr/bin/env bash
# Reads each names file that this repository ships, and one with all four words, and asks of each of its names and of some others
# which lists hold it.
set -eu
. "$(dirname "$0")/../lib/prepare.sh"
needs "names file" awk diff
lists=$(over_libraries names_file)

# Built in, each with its lists, whatever a file adds.
built_in=("usercopy_abort: noreturn" "__reiserfs_panic: noreturn" "__fentry__: uaccess" "rewind_stack_and_make_dead: noreturn loose"
    "asm_exc_nmi: loose" "restore_registers: loose" "__switch_to_asm: switch")
# In no list.
others=("printk:" "panic_:" "memcpy:")
printf '%s\n' "noreturn all_four" "uaccess all_four" "loose all_four" "switch all_four" "loose asm_call" "switch __switch_by_hand" \
    >"$scratch/four.names"

for file in "$root/share/linux.names" "$root/share/linux-6.12.names" "$scratch/four.names"; do
    # A name's lists are those of the file and those that are built in, in the order of the words here.
    { printf '%s\n' "${built_in[@]}" "${others[@]}"; grep -v '^#' "$file" | awk '{ print $2 ": " $1 }'; } | awk '
        { name = $1; names[name]; for (k = 2; k <= NF; k++) held[name, $k] }
        END {
            count = split("noreturn uaccess loose switch", words, " ")
            for (name in names) {
                line = name
                for (k = 1; k <= count; k++) if ((name, words[k]) in held) line = line " " words[k]
                print line
            }
        }' | sort >"$scratch/wanted"
    mapfile -t names < <(sed 's/:.*//' "$scratch/wanted")
    "$lists" "$file" "${names[@]}" >"$scratch/listed" || { cat "$scratch/listed"; exit 1; }
    diff "$scratch/wanted" "$scratch/listed" || { echo "names file: $file (<) and Lists (>) differ"; exit 1; }
    echo "names file: $(wc -l <"$scratch/wanted") names are in the lists that ${file##*/} and the program tell"
done
