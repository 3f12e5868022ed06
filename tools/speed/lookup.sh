#!/usr/bin/env bash
# How many rows a million look-ups read in a table of a million rows, and how long they take, beside the same look-ups by
# halving over all rows; and how long a walk of 100,000 frames takes. The program is tried and not proved, so only the ratios
# tell something.
set -eu
. "$(dirname "$0")/../lib/prepare.sh"

"$root/tools/lib/with-library.sh" "$scratch" lookup "$here/programs/lookup.rt.txt"
(cd "$scratch/crates/lookup" && rt try)
