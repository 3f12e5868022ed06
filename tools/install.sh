#!/usr/bin/env bash
# Puts the program, its manual page, the names of Linux 6.6 and 6.12 and the completions of bash, zsh and fish in place.
#   install.sh PREFIX
# PREFIX is a folder such as /usr/local or ~/.local, which is made where it isn't there. DESTDIR goes before it, as for packages. The
# program is the one that OBJTOOL names, or else what tools/build.sh builds. Prints each file that is put in place.
set -eu
. "$(dirname "$0")/lib/prepare.sh"
needs "install" install
[ $# -eq 1 ] && [ -n "$1" ] || { echo "usage: install.sh PREFIX"; exit 2; }
prefix=${DESTDIR:-}$1
program=$(built)
# puts MODE FILE TARGET: FILE as PREFIX/TARGET, in one step.
puts() {
    mkdir -p "$(dirname "$prefix/$3")"
    install -m "$1" "$2" "$prefix/$3.new"
    mv "$prefix/$3.new" "$prefix/$3"
    echo "$prefix/$3"
}
puts 755 "$program" bin/objtool
puts 644 "$root/docs/objtool.1" share/man/man1/objtool.1
puts 644 "$root/share/linux.names" share/objtool/linux.names
puts 644 "$root/share/linux-6.12.names" share/objtool/linux-6.12.names
puts 644 "$root/share/completions/objtool.bash" share/bash-completion/completions/objtool
puts 644 "$root/share/completions/_objtool" share/zsh/site-functions/_objtool
puts 644 "$root/share/completions/objtool.fish" share/fish/vendor_completions.d/objtool.fish
