#!/usr/bin/env bash
# Compares what `explain` tells with the documents: each rule of docs/RULES.md is explained under its number, with the table's text as
# its title; the topics that `explain` lists, and their titles, are those of docs/objtool.1, in the same order; and each topic is
# explained by a text that begins with its title, in lines of at most 78 columns.
set -eu
. "$(dirname "$0")/../lib/prepare.sh"
program=$(built)
failed=0
differ() { echo "explanations: $*"; failed=1; }

# topics_of_rules: the number and the text of each rule, a line each, with two blanks between.
topics_of_rules() {
    sed -nE 's/^\| ([0-9]+) \| `[A-Z0-9_]+` \| `([^`]+)` \|.*/\1  \2/p' "$root/docs/RULES.md"
}
# topics_of_manual: the same of the rules and the kinds of refusals that the manual page has.
topics_of_manual() {
    awk '
        $1 == ".Sh" { section = $2 }
        section == "RULES" && /^\.It [0-9]/ { print $2 "  " substr($0, length(".It " $2 " ") + 1) }
        kind != "" { print kind "  " $0; kind = "" }
        section == "EXPLANATIONS" && /^\.It Li / { kind = $3 }' "$root/docs/objtool.1"
}
# title_of TOPIC TITLE: the first line of the topic's text.
title_of() {
    case $1 in
    [0-9]*) echo "rule $1: $2" ;;
    file-*) echo "objtool: $2" ;;
    *) echo "refused: $2" ;;
    esac
}

# (a heading stands above, and an empty line behind it)
"$program" explain | sed '1,/^$/d' >"$scratch/listed"
topics_of_rules >"$scratch/rules"
[ -s "$scratch/rules" ] || differ "docs/RULES.md has no rules"
grep '^[0-9]' "$scratch/listed" >"$scratch/listed.rules" || true
diff "$scratch/rules" "$scratch/listed.rules" || differ "the rules of docs/RULES.md (<) and those of explain (>) differ"
topics_of_manual >"$scratch/manual"
diff "$scratch/manual" "$scratch/listed" || differ "the topics of docs/objtool.1 (<) and those of explain (>) differ"

count=0
while IFS= read -r line; do
    topic=${line%%  *} title=${line#*  }
    "$program" explain "$topic" >"$scratch/text" || differ "$topic ends with status $?"
    [ "$(head -n 1 "$scratch/text")" = "$(title_of "$topic" "$title")" ] || differ "the text on $topic has another title"
    [ "$(wc -l <"$scratch/text")" -gt 3 ] || differ "the text on $topic says nothing"
    ! grep -nE '.{79}' "$scratch/text" || differ "the text on $topic has longer lines than 78 columns"
    count=$((count + 1))
done <"$scratch/listed"
[ "$failed" -eq 0 ] && [ "$count" -gt 0 ]
echo "explanations: $count topics, as docs/RULES.md and docs/objtool.1 have them"
