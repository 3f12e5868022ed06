#!/usr/bin/env bash
# Proves and builds one program and the crates that it stands on, and nothing else: `rt ci` over a copy of these crates alone,
# without their must-fail edits, as many side by side as there are processors. Where the kit's `rt ci` keeps what it proved, that
# isn't proved again.
#   prove.sh FOLDER NAME
# FOLDER is where the copy is laid, unless it was laid there before; the program then is FOLDER/crates/NAME/out/NAME, and what
# Rattle's own compiler makes of it stands beside it as NAME.by-rattle. NAME is a program of crates.txt. With LAY set the copy is only
# laid, and what is printed is a sum of all that a proof of it reads.
# Tells each crate on the standard error as it is done. Where anything isn't proved it prints what rt said and ends with status 1.
set -eu -o pipefail
root=$(cd "$(dirname "$0")/../.." && pwd)
folder=$1 name=$2
. "$root/tools/lib/crates.sh"
failed() { echo "prove: $*" >&2; exit 1; }
command -v rt >/dev/null || failed "no rt: it comes with the Rattle kit"
mkdir -p "$folder/crates"
folder=$(cd "$folder" && pwd)

lay() {
    local libraries
    needed "$name" >"$folder/crates.new"
    libraries=$(sed 's/[ :].*//' "$folder/crates.new")
    [ -n "$libraries" ] || failed "crates.txt has no crate $name"
    sed 's|^|crates/|' <<<"$libraries" |
        tar -C "$root" --anchored --no-wildcards-match-slash --exclude='crates/*/out' --exclude='crates/*/must-fail' -T - -cf - |
        tar -C "$folder" -xf -
    [ ! -e "$root/HANDLES" ] || cp "$root/HANDLES" "$folder/HANDLES"
    mv "$folder/crates.new" "$folder/crates.txt"
}
if [ ! -e "$folder/crates.txt" ]; then lay; fi
if [ -n "${LAY:-}" ]; then
    cd "$folder"
    { rt version; find . -type f -print0 | LC_ALL=C sort -z | xargs -0 sha256sum; } | sha256sum
    exit 0
fi
number_of=$(wc -l <"$folder/crates.txt")

# It is the top of a repository, wherever it lies.
mkdir -p "$folder/.git"
log=$folder/.git/log
: >"$log"
# Tells what rt says, a line a crate.
told() {
    local number=0 line crate
    while IFS= read -r line; do
        crate=${line#rt: }
        case $line in
            "rt: "*" NOT PROVED"* | "rt: "*": its tests are proved") echo "prove: $crate" ;;
            "rt: "*" proved") number=$((number + 1)) && echo "prove: $number of $number_of: $crate" ;;
            "rt: "*" is kept: "*) number=$((number + 1)) && echo "prove: $number of $number_of: ${crate%% *} was proved by an earlier run" ;;
            "rt: waiting "* | "rt: note: "* | "rt: "*" waiting for it" | "rt: $name ran"*) echo "prove: $crate" ;;
        esac
    done
}
echo "prove: $name, $number_of crates" >&2
(cd "$folder" && exec rt ci) >"$log" 2>&1 &
rt=$!
trap 'kill "$rt" 2>/dev/null || true' EXIT
trap 'exit 1' INT TERM HUP
# (a child, so that a signal is heard while it runs)
tail -n +1 -f --pid="$rt" "$log" | told >&2 &
teller=$!
status=0
wait "$rt" || status=$?
wait "$teller" || true
if [ "$status" -ne 0 ] || [ ! -x "$folder/crates/$name/out/$name" ]; then
    # What rt said but of the crates that it proved, in terms of this folder.
    awk '
        /^== / { block = $0; next }
        block != "" { if (/^rt: .* proved$/ && !/NOT PROVED$/) block = ""; else { block = block "\n" $0; if (/^rt: .* NOT PROVED$/) { print block; block = "" } } next }
        !/ is kept: / { print }
        END { if (block != "") print block }' "$log" | sed "s|$folder/||g" >&2
    failed "$name isn't built: rt said the above"
fi
