#!/usr/bin/env bash
# How long `merge` takes for a table of 4,000,000 rows out of 1,024 objects with 200 text sections each, and how much memory; and one
# `find`, which reads the table once. Beside them `sort` of the same addresses as text. It isn't part of `.ci/run`.
#   merge.sh [FILES [SECTIONS [ROWS]]]     ROWS is how many each object has; 1024, 200 and 3906 where they aren't given
set -eu
. "$(dirname "$0")/../lib/prepare.sh"
needs "merge speed" gcc python3 sort
program=$(built)
cd "$scratch"
python3 "$here/inputs/placed_tables.py" . "${1:-1024}" "${2:-200}" "${3:-3906}"
PYTHONPATH=$root/tools/lib PROGRAM=$program python3 - <<'PYTHON'
import os

from measure import least

program = os.environ["PROGRAM"]
commands = {
    "merge": [program, "merge", "layout", "merged"],
    "sort": ["sort", "--parallel=1", "-o", "sorted", "addresses"],
    "find": [program, "find", "merged", "ffffffff80001234"],
}
took = {}
for name, words in commands.items():
    took[name] = least(words, env={"LC_ALL": "C", "PATH": os.environ["PATH"]})
    if took[name].status:
        raise SystemExit(f"merge speed: FAILED, {name} has status {took[name].status}")
    print(f"{name}: {took[name].passed:.2f} s, {took[name].seconds:.2f} s of processor time, {took[name].memory / 1024:.0f} MB")
rows, objects = (os.path.getsize("merged") - 16) // 14, sum(name.endswith(".o") for name in os.listdir("."))
shares = {name: took[name].seconds / took["sort"].seconds for name in ("merge", "find")}
print(f"merge speed: {rows} rows of {objects} objects; merge takes {shares['merge']:.2f} of the processor time of sort, find {shares['find']:.3f}")
PYTHON
