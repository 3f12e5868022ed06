# Completion of the words of objtool, for bash: commands, the options of each that don't stand yet, and names of files.
_objtool() {
    local current=${COMP_WORDS[COMP_CWORD]} options='' prefix='' files word i
    COMPREPLY=()
    if ((COMP_CWORD == 1)); then
        word='check dump unwind sites list entry cfi cfa merge find show explain demo --help --version -h -V'
        mapfile -t COMPREPLY < <(compgen -W "$word" -- "$current")
        return
    fi
    # the options of a command, and how many names of files it has
    case ${COMP_WORDS[1]} in
    check) files=2 options='--fp --retpoline --rethunk --uaccess --no-unreachable --link --module --backtrace --all-opcodes --names= ' ;;
    sites) files=2 options='--module --all-opcodes --names= ' ;;
    cfi) files=2 options='--all-opcodes --names= ' ;;
    entry) files=1 options='--noinstr --sls --ibt --all-opcodes --names= ' ;;
    show) files=1 options='--function= --all-opcodes --names= ' ;;
    unwind | merge) files=2 ;;
    dump | list | cfa | find) files=1 ;;
    *) return ;;
    esac
    # What stands already is left out. Where `=` breaks words, --names=FILE is three words, the last of which is one name more,
    # and so is --function=NAME.
    for ((i = 2; i < COMP_CWORD; i++)); do
        word=${COMP_WORDS[i]}
        case $word in
        --names*) options=${options/--names= /} ;;
        --function*) options=${options/--function= /} ;;
        -*) options=${options/"$word "/} ;;
        =) ((files += 1)) ;;
        *) ((files -= 1)) ;;
        esac
    done
    case $current in
    --names=*)
        [[ $options == *--names=* ]] || return
        prefix=--names= current=${current#--names=}
        ;;
    --function=*) return ;;
    =)
        [[ ${COMP_WORDS[COMP_CWORD - 1]} != --function ]] || return
        current=''
        ;;
    -*)
        mapfile -t COMPREPLY < <(compgen -W "$options" -- "$current")
        # the name of the file stands right behind --names=, that of the function behind --function=
        [[ ${COMPREPLY[*]} != *= ]] || compopt -o nospace
        return
        ;;
    *)
        ((files > 0)) || return
        [[ ${COMP_WORDS[COMP_CWORD - 2]} != --function || ${COMP_WORDS[COMP_CWORD - 1]} != = ]] || return
        ;;
    esac
    compopt -o filenames
    mapfile -t COMPREPLY < <(compgen -P "$prefix" -f -- "$current")
}
complete -F _objtool objtool
