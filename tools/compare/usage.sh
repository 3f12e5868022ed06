#!/usr/bin/env bash
# Compares the commands and the options that `--help`, the manual page and README's usage name, and checks the manual page's language.
set -eu
. "$(dirname "$0")/../lib/prepare.sh"
needs "usage" mandoc col
page=$root/docs/objtool.1
mandoc -T lint "$page" || { echo "usage: mandoc has warnings of the manual page"; exit 1; }
program=$(built)
cd "$scratch"
"$program" --help >help
mandoc -T ascii "$page" | col -b >page
sed -n '/^## Usage$/,/^## [^U]/p' "$root/README.md" >readme

options() { grep -oE -- '--[a-z]+(-[a-z]+)*' "$1" | sort -u; }
grep -q '^Usage: objtool <COMMAND>$' help || { cat help; exit 1; }
awk '$1 == "Commands:" { inside = 1; next } NF == 0 { inside = 0 } inside { print $1 }' help | sort >help.commands
sed -n '/^SYNOPSIS/,/^DESCRIPTION/p' page | sed -n 's/^ *objtool \([a-z]*\) .*/\1/p' | sort -u >page.commands
grep -oE '`[a-z]+ [A-Z]+' readme | sed 's/^`//; s/ .*//' | sort -u >readme.commands
for place in help page readme; do options "$place" >"$place.options"; done
for what in commands options; do
    for place in page readme; do
        diff "help.$what" "$place.$what" || { echo "usage: --help (<) and the $place (>) name other $what"; exit 1; }
    done
done
echo "usage: --help, the manual page and README name the same $(wc -l <help.commands) commands and $(wc -l <help.options) options"
