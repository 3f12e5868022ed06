#!/usr/bin/env bash
# Compares the completions of share/completions with `objtool --help`: which commands there are, which options each has and how many
# names, and what stands as the only word. That for bash is asked as bash asks it; those for zsh and fish are run by bash, with the
# shells' own commands in place that write down what they are told.
set -eu
. "$(dirname "$0")/../lib/prepare.sh"
folder=$root/share/completions
failed=0

# Each line is a command and an option of it, a command and its names, or a word that stands alone.
words_of_help() {
    awk '
        $1 == "Commands:" { part = "commands"; next }
        $1 == "Options:" && command == "" { part = "alone"; next }
        $1 == "Options:" { part = "options"; next }
        $1 == "Usage:" && $3 != "<COMMAND>" {
            command = $3; part = ""
            for (i = 4; i <= NF; i++) if ($i ~ /^[<[]/ && $i != "[OPTIONS]") { gsub(/[][<>]/, "", $i); print command, $i }
        }
        NF == 0 { part = "" }
        part == "commands" { print "command", $1 }
        part == "alone" { for (i = 1; i <= NF; i++) if ($i ~ /^-/) { sub(/,/, "", $i); print "alone", $i } }
        part == "options" { option = $1; sub(/<.*/, "", option); print command, option }' | sort
}

# bash: what is offered behind some words
offered() {
    COMP_WORDS=(objtool "$@") COMP_CWORD=$#
    (
        compopt() { :; }
        cd "$scratch/files"
        . "$folder/objtool.bash"
        _objtool
        [ ${#COMPREPLY[@]} -eq 0 ] || printf '%s\n' "${COMPREPLY[@]}"
    )
}
words_of_bash() {
    local command option
    offered '' | sed 's/^-/alone -/; t; s/^/command /'
    for command in $commands; do
        for option in $(offered "$command" -); do echo "$command $option"; done
    done
}

# zsh: _arguments is told first what stands as the only word, and which state to go on with; then what the command has
words_of_zsh() (
    _arguments() {
        local word
        if [ "$1" = -C ]; then
            state=$going_on
            for word; do
                word=${word##*)} word=${word%%[*}
                [[ $state != command || $word != -?* || $word == -C ]] || echo "alone $word"
            done
        else
            for word; do
                case $word in
                --*) word=${word%%[*} && echo "${words[1]} ${word/%=-/=}" ;;
                [0-9]:*) word=${word#*:} && echo "${words[1]} ${word%%:*}" ;;
                esac
            done
        fi
    }
    _describe() {
        local -n all=$4
        local each
        for each in "${all[@]}"; do echo "command ${each%%:*}"; done
    }
    # (the file calls its function as it is read)
    local words=('' '') curcontext='' going_on=command each
    . "$folder/_objtool"
    going_on=word
    for each in $commands; do
        words=('' "$each")
        _objtool
    done
)

# fish: each line is a call of `complete`
words_of_fish() (
    complete() {
        local when='' words='' option='' short='' long='' file=no
        while [ $# -gt 0 ]; do
            case $1 in
            -n) when=$2 && shift ;;
            -a) words=$2 && shift ;;
            -s) short=$2 && shift ;;
            -l) long=$2 && shift ;;
            -c | -d) shift ;;
            -f | -F) ;;
            *) echo "fish: unknown word $1" ;;
            esac
            shift
        done
        case $when in
        'test (count (commandline -opc)) -eq 1')
            [ -z "$words" ] || echo "command $words"
            [ -z "$short" ] || echo "alone -$short"
            [ -z "$long" ] || echo "alone --$long"
            ;;
        'contains -- (commandline -opc)[2] '*)
            when=${when#*\[2\] }
            option=${long:+--$long}$words
            case $when in
            *"; and not __fish_contains_opt $long" | *"; and not string match -q -- \"$option*\" (commandline -opc)") ;;
            *) [ -z "$option" ] || echo "fish: $option may stand twice" ;;
            esac
            for words in ${when%%;*}; do
                [ -n "$option" ] && echo "$words $option" || echo "file $words"
            done
            ;;
        '') [ -z "$words$short$long" ] ;;
        *) echo "fish: unknown condition $when" ;;
        esac
    }
    . "$folder/objtool.fish"
)

same() {
    diff "$1" "$2" >"$scratch/differ" || { echo "completions: --help (<) and $3 (>) differ"; cat "$scratch/differ"; failed=1; }
}

program=$(built)
"$program" --help | words_of_help >"$scratch/help"
commands=$(sed -n 's/^command //p' "$scratch/help")
[ -n "$commands" ] || { echo "completions: --help names no commands"; exit 1; }
mkdir "$scratch/files"
touch "$scratch/files/a b.o" "$scratch/files/c.o"

# options and words alone
grep -E '^(command|alone) | -' "$scratch/help" | sort >"$scratch/words"
for shell in bash zsh fish; do
    "words_of_$shell" | grep -vE '^file ' | grep -E '^(command|alone|fish:) | -' | sort >"$scratch/$shell"
    same "$scratch/words" "$scratch/$shell" "$shell"
done
# zsh: the names of the places too
grep -vE '^(command|alone) | -' "$scratch/help" >"$scratch/places"
words_of_zsh | grep -vE '^(command|alone) | -' | sort >"$scratch/zsh"
same "$scratch/places" "$scratch/zsh" "places of zsh"
# which commands have names of files: all whose places aren't a number alone
sed -n 's/^file //p' <<<"$(words_of_fish)" | sort >"$scratch/fish"
awk '$2 != "N" && $2 != "ADDR" && $2 != "TOPIC" { print $1 }' "$scratch/places" | sort -u >"$scratch/with.files"
same "$scratch/with.files" "$scratch/fish" "files of fish"

# bash: files as many as there are places of files, and of --names, however words are broken
expect() {
    local want=$1 got
    shift
    got=$(offered "$@")
    [ "$got" = "$want" ] || { echo "completions: bash offers behind '$*': $got"; failed=1; }
}
both=$'a b.o\nc.o'
for command in $commands; do
    places=$(awk -v c="$command" '$1 == c && $2 != "N" && $2 != "ADDR" && $2 != "TOPIC"' "$scratch/places" | wc -l)
    given=()
    for ((i = 0; i < places; i++)); do
        expect "$both" "$command" "${given[@]}" ''
        given+=(name)
    done
    expect '' "$command" "${given[@]}" ''
done
expect --fp check --f
expect '' check --fp a --fp
expect --names= check a --na
expect "$both" check --names ''
expect "$both" check --names =
expect "$both" check --names = ''
expect c.o check a b --names = c
expect --names=c.o check --names=c
expect '' check a b --names = c ''
expect '' check --names = c --names
expect '' dump --names=c
expect --function= show a --fu
expect '' show a --function=b --fu
expect '' show --function = b --fu
expect "$both" show --function ''
expect '' show --function =
expect '' show --function = ''
expect "$both" show --function = b ''
[ "$failed" -eq 0 ]
echo "completions: bash, zsh and fish offer the words that --help names"
