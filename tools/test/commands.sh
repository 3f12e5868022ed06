#!/usr/bin/env bash
# Runs the cases of tests/commands by the built program, as LLVM built it and as Rattle's own compiler did, and compares what comes
# out with what the cases say.
#   commands.sh [--build] [NAME..]
# With names, only these cases. `rt ci` leaves both programs in crates/objtool/out; --build has `rt run` prove and build what isn't
# there or is older than the sources. OBJTOOL names one program that is run in the place of both. Nothing is skipped: a tool or a
# program that isn't there is a failure.
set -eu
. "$(dirname "$0")/../lib/prepare.sh"
failed() { echo "commands: $*" >&2; exit 2; }
for tool in python3 as prlimit; do
    command -v "$tool" >/dev/null || failed "no $tool"
done

by_llvm=$root/crates/objtool/out/objtool
by_rattle=$by_llvm.by-rattle
# Whether a program is there and not older than the sources.
is_fresh() { [ -x "$1" ] && [ -z "$(find "$root/crates" -path '*/out' -prune -o -name '*.rt' -newer "$1" -print -quit)" ]; }
# build WORD..: `rt run`, which proves what has changed, builds, and runs without words, which gives status 3.
build() {
    rm -f "$by_llvm"
    (cd "$root/crates/objtool" && rt run "$@") >"$scratch/said" 2>&1 || true
    [ -x "$by_llvm" ] || { tail -n 40 "$scratch/said" >&2; failed "rt run $* built no program"; }
}

if [ "${1-}" = --build ]; then
    shift
    # Each is built as crates/objtool/out/objtool, so that of LLVM comes last.
    if ! is_fresh "$by_llvm" || ! is_fresh "$by_rattle"; then
        build --backend rattle
        mv "$by_llvm" "$by_rattle"
        build
    fi
fi
if [ -n "${OBJTOOL:-}" ]; then
    programs=("$(realpath "$OBJTOOL")")
    [ -x "${programs[0]}" ] || failed "no program $OBJTOOL"
else
    programs=("$by_llvm" "$by_rattle")
    for program in "${programs[@]}"; do
        is_fresh "$program" || failed "${program#"$root/"} isn't there or is older than the sources: --build or rt ci makes it"
    done
fi
# Most of the time goes by making folders and files, which is quick in memory.
[ ! -w /dev/shm ] || export TMPDIR=/dev/shm
python3 "$root/tools/test/commands/run.py" "$root/tests/commands" "${programs[@]}" -- "$@"
