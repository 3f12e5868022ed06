#!/usr/bin/env bash
# How long `check` takes on large objects and how much memory: without options, with each that asks for rules, and with all of
# these. Beside it Linux's own objtool (`--orc`), and how many points, edges and different states the object has there. Each object is made of
# copies of a folder's objects, all of which `check` has to accept; by the rules that options ask for it may warn (status 1), and
# then it makes no tables.
#   large-object.sh FOLDER [MEGABYTES..]
# FOLDER has the objects; the sizes of text are 1, 4 and 16 MB where none is given, the last as far as `check` takes it. OBJTOOL_LINUX
# names Linux's objtool, and where it isn't given, none is compared. The points are counted by a program of its own, which is proved
# first and not timed: LARGE_OBJECT=PROGRAM counts by that one, NO_COUNT=1 leaves it out. Each time is the least of three runs. It is a
# benchmark: nothing is asked of the times.
set -eu
. "$(dirname "$0")/../lib/prepare.sh"
needs "large object" gcc python3 ld objcopy readelf
[ $# -ge 1 ] || { echo "usage: large-object.sh FOLDER [MEGABYTES..]"; exit 2; }
folder=$(cd "$1" && pwd)
sizes=("${@:2}")
[ ${#sizes[@]} -gt 0 ] || sizes=(1 4 16)
program=$(built)
counter=
[ -n "${NO_COUNT:-}" ] || counter=$(over_libraries large_object)
cd "$scratch"

# measured POINTS WORD..: as measure.py measures the words, the processor time in seconds, and where the points are known, that of a point; the most memory, and the status.
measured() {
    local points=$1 taken
    shift
    read -ra taken <<<"$(python3 "$root/tools/lib/measure.py" "$@")"
    awk -v points="$points" -v micros="${taken[0]}" 'BEGIN { printf "%.2f s%s", micros / 1e6, points ? sprintf(", %.0f ns a point", micros * 1000 / points) : "" }'
    echo ", ${taken[1]} KiB, status ${taken[2]}"
}

for size in "${sizes[@]}"; do
    mkdir -p parts
    text=$(python3 "$here/inputs/copies.py" "$folder" $((size * 1000000)) object.o parts)
    rm -rf parts
    echo "large object: $text bytes of text, $(stat -c %s object.o) bytes"
    said=
    [ -z "$counter" ] || said=$("$counter" object.o 2>&1) || { echo "$said"; exit 1; }
    sed -n 's/^counted: /  /p' <<<"$said"
    points=$(sed -n 's/^counted: \([0-9]*\) points.*/\1/p' <<<"$said")
    for options in "" --fp --retpoline --rethunk --uaccess "--fp --retpoline --rethunk --uaccess"; do
        # shellcheck disable=SC2086
        echo "  check${options:+ $options}: $(measured "${points:-0}" 3 "$program" check object.o out.o $options)"
    done
    if [ -n "${OBJTOOL_LINUX:-}" ]; then
        echo "  objtool --orc: $(measured 0 --copy object.o own.o 3 "$OBJTOOL_LINUX" --orc own.o)"
    fi
done
