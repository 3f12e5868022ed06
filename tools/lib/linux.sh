# Sourced behind prepare.sh, by what compares with Linux's own objtool. That is the program that OBJTOOL_LINUX names, or else the one of
# Debian's newest kernel 6.12.

# newest PATTERN: the newest package of Debian with a name of this pattern.
newest() { apt-cache search --names-only "$1" | awk '{ print $1 }' | sort -V | tail -n 1; }
# fetched PACKAGE..: fetches these packages and unpacks them in $scratch/fetched.
fetched() {
    local package
    needs "fetching" apt-get apt-cache dpkg
    mkdir -p "$scratch/packages" "$scratch/fetched"
    (cd "$scratch/packages" && apt-get -q download "$@" >/dev/null 2>&1) || { echo "fetching: FAILED: $*" >&2; return 1; }
    for package in "$scratch"/packages/*.deb; do dpkg -x "$package" "$scratch/fetched" && rm "$package"; done
}
# linux_objtool: prints where Linux's objtool lies.
linux_objtool() {
    if [ -n "${OBJTOOL_LINUX:-}" ]; then
        [ -x "$OBJTOOL_LINUX" ] || { echo "OBJTOOL_LINUX names no program: $OBJTOOL_LINUX" >&2; return 1; }
        echo "$OBJTOOL_LINUX"
        return
    fi
    fetched "$(newest '^linux-kbuild-6\.12')" || return 1
    find "$scratch/fetched" -name objtool.real-x86 | grep . || { echo "fetching: FAILED, the package has no objtool" >&2; return 1; }
}
