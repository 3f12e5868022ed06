#!/usr/bin/env bash
# Installs what the scripts of `.ci/run` call and this machine lacks, by the package manager of Debian and Ubuntu. Where nothing is
# missing it does nothing. Ends with status 1 where something is missing then.
set -u
# Each package with the tools and files that are wanted of it.
packages="
binutils as ld objcopy objdump readelf
gcc gcc
libc6-dev /usr/include/dlfcn.h
python3 python3
mawk awk
sed sed
grep grep
tar tar
findutils find xargs
diffutils cmp diff
coreutils basename cut df fold head mktemp mkfifo paste realpath sha256sum sort stat tail touch tr wc
mount mount umount
util-linux prlimit setpriv
"
# lacking: the packages of which something is missing.
lacking() {
    local package wanted tool
    while read -r package wanted; do
        for tool in $wanted; do
            case $tool in /*) [ -e "$tool" ] ;; *) command -v "$tool" >/dev/null ;; esac || { echo "$package"; break; }
        done
    done <<<"$packages"
}
missing=$(lacking)
[ -n "$missing" ] || exit 0
echo "install:" $missing
if ! command -v apt-get >/dev/null; then
    echo "install: FAILED, no apt-get here: install" $missing >&2
    exit 1
fi
log=$(mktemp)
trap 'rm -f "$log"' EXIT
export DEBIAN_FRONTEND=noninteractive
if ! { apt-get -q update && apt-get -q install -y --no-install-recommends $missing; } >"$log" 2>&1 </dev/null; then
    tail -n 30 "$log" >&2
    echo "install: FAILED, the package manager said the above" >&2
    exit 1
fi
missing=$(lacking)
[ -z "$missing" ] || { echo "install: FAILED, still missing what these have:" $missing >&2; exit 1; }
