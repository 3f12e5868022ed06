#!/usr/bin/env bash
# Writes the table of crates in docs/ARCHITECTURE.md, between its two marks, anew from the sources: the crates in the order of
# crates.txt; as their groups the comments there, each without its full stop, that stand above their lines; and what each has by the
# first sentence of the text (//!) at the head of its root file, src/lib.rt or src/main.rt: up to the first full stop that a blank or
# the end follows, or else up to the first empty line of that text.
#   map.sh [--check]
# With --check nothing is written: it prints how the document and the sources differ, and ends with status 1 where they do.
set -eu -o pipefail
root=$(cd "$(dirname "$0")/.." && pwd)
cd "$root"
document=docs/ARCHITECTURE.md
begin='<!-- the table of crates: tools/map.sh -->'
end='<!-- end -->'
failed() { echo "map: $*" >&2; exit 1; }
[ $# -eq 0 ] || [ "$*" = --check ] || failed "it takes --check alone"
[ "$(grep -xF -e "$begin" -e "$end" "$document")" = "$begin"$'\n'"$end" ] || failed "$document has not one line '$begin' and one line '$end' behind it"

# sentence FILE: the first sentence of the file's head, without its full stop.
sentence() {
    awk '
        /^\/\/!/ { sub(/^\/\/! */, ""); if ($0 == "") exit; text = text (text == "" ? "" : " ") $0; next }
        { exit }
        END {
            if (match(text, /\.( |$)/)) text = substr(text, 1, RSTART - 1)
            gsub(/\|/, "\\|", text)
            print text
        }' "$1"
}
table() {
    local group="" shown="" is_comment="" line name file text
    echo '| Group | Crate | What it has |'
    echo '|---|---|---|'
    while IFS= read -r line || [ -n "$line" ]; do
        case $line in
            '#'*)
                line=${line#'#'}
                line=${line# }
                group=${is_comment:+$group }${line%.}
                is_comment=yes shown=""
                continue
                ;;
        esac
        is_comment=""
        line=${line%%#*}
        case $line in *:*) ;; *) continue ;; esac
        name=${line%%:*}
        name=${name%% *}
        file=crates/$name/src/lib.rt
        [ -e "$file" ] || file=crates/$name/src/main.rt
        [ -e "$file" ] || failed "crate $name has no src/lib.rt and no src/main.rt"
        text=$(sentence "$file")
        [ -n "$text" ] || failed "$file says at its head (//!) nothing of what the crate has"
        if [ -z "$shown" ]; then shown=yes; else line=""; fi
        echo "| ${line:+$group} | \`$name\` | $text |"
    done <crates.txt
}
written() {
    awk -v begin="$begin" '{ print } $0 == begin { exit }' "$document"
    table
    awk -v end="$end" '$0 == end { found = 1 } found' "$document"
}
new=$(mktemp)
trap 'rm -f "$new"' EXIT
written >"$new"
if [ "${1:-}" = --check ]; then
    diff -u --label "$document" --label "by the sources" "$document" "$new" || failed "$document isn't up to date: run tools/map.sh"
else
    cmp -s "$new" "$document" || cat "$new" >"$document"
fi
