# Sourced where `root` is the top of the repository.
# needed NAME..: the lines of crates.txt of these crates and of all that they stand on, each once; what it doesn't list is left out.
needed() {
    awk -v wanted="$*" '
        { sub(/#.*/, "") }
        /:/ { split($0, side, ":"); split(side[1], word, " "); line[word[1]] = $0; uses[word[1]] = side[2] }
        END {
            count = split(wanted, todo, " ")
            for (i = 1; i <= count; i++) {
                if (!(todo[i] in line) || todo[i] in seen) continue
                seen[todo[i]] = 1
                print line[todo[i]]
                more = split(uses[todo[i]], used, " ")
                for (j = 1; j <= more; j++) todo[++count] = used[j]
            }
        }' "$root/crates.txt"
}
