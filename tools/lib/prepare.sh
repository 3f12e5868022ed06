# Sourced by the scripts below tools. It gives them the top of the repository, `root`, and a folder that goes when the script ends,
# `scratch`; and these functions:
#   needs NAME TOOL..       fails the script NAME where a tool is missing (install-packages.sh installs those that `.ci/run` needs)
#   built                   prints the program that OBJTOOL names, or else what tools/build.sh builds
#   over_libraries NAME     prints a program over the libraries: the one that the variable of this name in upper case names, or else
#                           programs/NAME.rt.txt beside the script, which is proved and built
#   objects_below FOLDER..  prints the objects below some folders (*.o), a line each
# Their answers are taken as program=$(built), so that the script ends where there is none.
root=$(cd "$(dirname "${BASH_SOURCE[0]}")/../.." && pwd)
here=$(cd "$(dirname "$0")" && pwd)
scratch=$(mktemp -d)
trap 'rm -rf "$scratch"' EXIT
export PYTHONDONTWRITEBYTECODE=1
# (a script may go elsewhere before it asks)
[ -z "${OBJTOOL:-}" ] || OBJTOOL=$(realpath "$OBJTOOL")
[ -z "${OBJTOOL_LINUX:-}" ] || OBJTOOL_LINUX=$(realpath "$OBJTOOL_LINUX")

needs() {
    local name=$1 tool missing=
    shift
    for tool; do command -v "$tool" >/dev/null || missing+=" $tool"; done
    [ -z "$missing" ] || { echo "$name: FAILED, not installed:$missing" >&2; exit 1; }
}
built() {
    if [ -z "${OBJTOOL:-}" ]; then
        "$root/tools/build.sh"
    elif [ -x "$OBJTOOL" ]; then
        echo "$OBJTOOL"
    else
        echo "OBJTOOL names no program: $OBJTOOL" >&2
        return 1
    fi
}
over_libraries() {
    local name=$1 given=${1^^} crate=$scratch/crates/$1
    if [ -n "${!given:-}" ]; then
        [ -x "${!given}" ] || { echo "$given names no program: ${!given}" >&2; return 1; }
        realpath "${!given}"
        return
    fi
    "$root/tools/lib/with-library.sh" "$scratch" "$name" "$here/programs/$name.rt.txt"
    # (it is run without the words that it wants, and fails; what matters is that it is there)
    (cd "$crate" && rt run) >"$crate/said" 2>&1 || true
    [ -x "$crate/out/$name" ] || { tail -n 20 "$crate/said" >&2; return 1; }
    echo "$crate/out/$name"
}
objects_below() {
    local folder
    for folder; do find "$(readlink -f "$folder")" -name '*.o' | sort; done
}
