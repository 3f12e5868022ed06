#!/usr/bin/env bash
# What `check` takes beside Linux's own objtool on parts of a Linux kernel, each measured by joined.sh.
#   kernel.sh [PART..]
# A part is a folder of the kernel's source, or several with commas between: the objects below them are joined. Where none is given, they
# are fs/ext4, net/core, and these with ten more, some 10 MB of text. They are compiled here, of the sources of Linux 6.12 that Debian
# has, in Debian's configuration but for debugging information, and Linux's objtool isn't run over them: ten minutes on four processors.
# KEEP=FOLDER keeps those of each part in a folder there, as tools/compare/kernel-objects.sh takes them. It is a benchmark: nothing is asked
# of what it measures.
set -eu
. "$(dirname "$0")/../lib/prepare.sh"
. "$root/tools/lib/linux.sh"
needs "parts of a kernel" gcc make flex bison bc xz tar
[ -e /usr/include/libelf.h ] || { echo "parts of a kernel: FAILED, not installed: libelf-dev" >&2; exit 1; }
large=fs/ext4,net/core,kernel,mm,block,lib,crypto,security,fs/btrfs,fs/xfs,net/ipv4,net/ipv6
[ $# -gt 0 ] || set -- fs/ext4 net/core "$large"
kept=$(realpath -m "${KEEP:-$scratch/objects}")
OBJTOOL=$(built) OBJTOOL_LINUX=$(linux_objtool)
export OBJTOOL OBJTOOL_LINUX

# configured TREE: unpacks the sources there, with Debian's configuration.
configured() {
    local sources=$scratch/fetched/usr/src
    fetched linux-source-6.12 linux-config-6.12
    mkdir "$1"
    tar -xf "$sources/linux-source-6.12.tar.xz" -C "$1" --strip-components=1
    xz -dc "$sources/linux-config-6.12/config.amd64_none_amd64.xz" >"$1/.config"
    (cd "$1" && scripts/config -d DEBUG_INFO_BTF -d DEBUG_INFO_DWARF_TOOLCHAIN_DEFAULT -d DEBUG_INFO_DWARF4 -d DEBUG_INFO_DWARF5 \
        -e DEBUG_INFO_NONE --set-str SYSTEM_TRUSTED_KEYS "" && make -s olddefconfig)
}
# compiled FOLDER..: the objects below these folders that the compiler or the assembler made, and not the linker.
compiled() {
    grep -rlE '^savedcmd_\S+ := gcc ' "$@" --include='.*.o.cmd' | sed -E 's,\.([^/]*)\.cmd$,\1,' | sort
}

tree=$scratch/linux
configured "$tree"
cd "$tree"
printf '%s/\n' ${*//,/ } | sort -u | xargs make -s -j "$(nproc)" objtool=true >"$scratch/said" 2>&1 ||
    { tail -n 20 "$scratch/said" >&2; exit 1; }
for part; do
    objects=$kept/${part//[\/,]/_}
    mkdir -p "$objects"
    for object in $(compiled ${part//,/ }); do cp "$object" "$objects/${object//\//__}"; done
    echo "$part:"
    "$here/joined.sh" "$objects"
done
