#!/usr/bin/env bash
# How fast `dump` prints the rows of a kernel module, beside Linux's own objtool and `readelf -x` of the same sections: the
# processor time of each, the least of three runs.
#   dump.sh MODULE       a module (.ko); OBJTOOL_LINUX names Linux's objtool, which is fetched where it isn't given
set -eu
. "$(dirname "$0")/../lib/prepare.sh"
. "$root/tools/lib/speed.sh"
. "$root/tools/lib/linux.sh"
needs "dump speed" readelf awk gcc python3
[ $# -eq 1 ] || { echo "usage: dump.sh MODULE"; exit 2; }
linux=$(linux_objtool)
program=$(built)
dumped=$(least 3 "$program" dump "$1")
by_linux=$(least 3 "$linux" --dump=orc "$1")
hex=$(least 3 readelf -x .orc_unwind -x .orc_unwind_ip "$1")
echo "dump: $dumped us of processor time for $("$program" dump "$1" | wc -l) rows; objtool --dump=orc: $by_linux us; readelf -x: $hex us"
echo "dump speed: $(ratio %.2f "$by_linux" "$dumped") times as fast as objtool --dump=orc, $(ratio %.2f "$hex" "$dumped") times as readelf -x"
