#!/usr/bin/env bash
# Each tests/must-not-compile/NAME.rt.txt is a program that the compiler must refuse. Its first lines say which libraries of
# this repository it uses, `// uses: NAME ..`, and the error that it must be refused with, `// error: CODE`.
set -eu
. "$(dirname "$0")/../lib/prepare.sh"
passed=0
failed=0
for file in "$root"/tests/must-not-compile/*.rt.txt; do
    name=$(basename "$file" .rt.txt)
    error=$(sed -n 's|^// error: ||p' "$file")
    "$root/tools/lib/with-library.sh" "$scratch" "$name" "$file"
    status=0
    said=$(cd "$scratch/crates/$name" && rt try 2>&1) || status=$?
    if [ "$status" -ne 0 ] && grep -qF "error[$error]" <<<"$said"; then
        echo "must-not-compile: $name: refused with $error, as it must be"
        passed=$((passed + 1))
    else
        echo "must-not-compile: $name: not refused with $error"
        head -n 20 <<<"$said"
        failed=$((failed + 1))
    fi
done
echo "must-not-compile: $passed passed, $failed failed"
[ "$failed" -eq 0 ] && [ "$passed" -gt 0 ]
