#!/usr/bin/env bash
# What a command leaves at OUT and around it: the new file, whole, which is put in its place in one step, to the target of a symbolic
# link, and where it is, what is no regular file; or where a write fails or the program is killed, what was there before. IN is as it
# was, and after a failure no new file is there. The permissions of OUT are as after objcopy.
set -eu
. "$(dirname "$0")/../lib/prepare.sh"
needs "output file" gcc as ld objcopy stat cmp df mkfifo mount umount setpriv
made=$(built)
failed() { echo "output file: FAILED, $*"; exit 1; }
cd "$scratch"
# Where each user can run it.
chmod 711 . && cp "$made" objtool && chmod 755 objtool
program=$scratch/objtool
gcc -O1 -shared -fPIC -o disturb.so "$here/output-file/disturb.c" -ldl

# An object whose table has thousands of rows, what each command makes of it, and what stands at OUT before.
printf '\t.text\n\t.type leaf, @function\nleaf:\n\t.rept 2000\n\tpush %%rbx\n\tpop %%rbx\n\t.endr\n\tret\n\t.size leaf, .-leaf\n' | as -o assembled.o -
ld -r -o in.o assembled.o
printf 'file wanted.check\nplace 1 1000\n' >layout
for writes in check sites cfi merge; do
    case $writes in merge) input=layout ;; *) input=in.o ;; esac
    "$program" "$writes" "$input" "wanted.$writes" || failed "$writes: the object isn't accepted"
done
head -c 9000 /dev/urandom >old.o
mkdir place
command=check onwards=

# lay CASE: the files of a case. OUT is not there yet, an old file, a link to one, a link that leads nowhere, or IN itself.
lay() {
    chmod 755 place
    rm -rf place/* place/.objtool-*
    cp in.o place/in.o
    input=place/in.o out=place/out.o target=$out before=old.o
    [ "$command" != merge ] || input=layout
    case $1 in
    new) before= ;;
    old) ;;
    link) out=place/link.o && ln -s out.o place/link.o ;;
    dangling) before= out=place/link.o && ln -s out.o place/link.o ;;
    self) out=place/in.o target=$out before=in.o ;;
    esac
    [ -z "$before" ] || [ "$1" = self ] || cp old.o "$target"
}
is_before() { if [ -n "$before" ]; then cmp -s "$target" "$before"; else [ ! -e "$target" ]; fi; }
is_new() { cmp -s "$target" "wanted.$command"; }
# What is there besides the files of the case.
left() {
    local file
    for file in place/* place/.[!.]*; do
        case $file in place/in.o | "$out" | "$target" | 'place/*' | 'place/.[!.]*') ;; *) echo "$file" ;; esac
    done
}
# kept WHAT: IN and the link are as they were.
kept() {
    [ "$out" = place/in.o ] || cmp -s place/in.o in.o || failed "$1: IN changed"
    [ "$out" != place/link.o ] || [ -L "$out" ] || failed "$1: the link is gone"
}
# tells_fault OUT: the last run told that OUT failed, and why.
tells_fault() { [[ $told = "file fault: $1"$'\n'"objtool: $1: "?* ]]; }
# tells_standing: the last run told that OUT stands from before, where it does, and else not.
tells_standing() {
    if [ -n "$before" ]; then [ "${told##*$'\n'}" = "objtool: $out stands from before this run" ]; else [[ $told != *" stands from before this run"* ]]; fi
}
# answered WHAT [STATUS]: all was done, or OUT is told to have failed and is as before; nothing is left, but where nothing can be removed.
answered() {
    kept "$1"
    case $status in
    0) is_new || failed "$1: status 0, and OUT isn't the new file" ;;
    4) is_before || failed "$1: status 4, and OUT changed"
       tells_fault "$out" && tells_standing || failed "$1: told '$told'" ;;
    *) failed "$1: status $status and '$told'" ;;
    esac
    [ "$status" = "${2:-$status}" ] || failed "$1: status $status"
    [ -n "$onwards" ] || [ -z "$(left)" ] || failed "$1: left is $(left)"
}
# runs WORD..: runs the command on IN and OUT behind these words.
runs() { told=$("$@" "$program" "$command" "$input" "$out" 2>&1) && status=0 || status=$?; }
# faulted WHAT OUT: the last run ended with status 4, and told that OUT failed.
faulted() { [ "$status" = 4 ] && tells_fault "$2" || failed "$1: status $status and '$told'"; }

# Where OUT is put.
for command in check sites cfi merge; do
    for case in new old link dangling self; do
        [ "$command $case" != "merge self" ] || continue
        lay "$case"
        runs env
        answered "$command, $case" 0
    done
done
command=check input=in.o
out=/dev/null && runs env && [ "$status" = 0 ] && [ -c /dev/null ] || failed "/dev/null"
mkfifo pipe && { cat pipe >piped.o & } && out=pipe && runs env && wait && [ "$status" = 0 ] && cmp -s piped.o wanted.check || failed "a pipe"
out=no/out.o && runs env && faulted "no such folder" "$out"
mkdir folder && out=folder && runs env && faulted "a folder" "$out"
[ -z "$(compgen -G '.objtool-*')" ] || failed "a file is left"
echo "output file: new and old files, links, IN itself, a device, a pipe, no folder and a folder"

# Each call that changes files disturbed in turn.
runs=0
for command in check sites cfi merge; do
    hows=(kill "28 onwards")
    [ "$command" != check ] || hows=(kill killed half short 28 5 4 "28 onwards" "5 onwards")
    for case in new old link self; do
        [ "$command $case" != "merge self" ] || continue
        for ((call = 1; call < 100; call++)); do
            rm -f mark
            for how in "${hows[@]}"; do
                lay "$case"
                what="$command, $case, call $call, $how"
                onwards=${how#"${how%% *}"}
                runs env CALL=$call HOW="${how%% *}" ONWARDS="$onwards" MARK="$scratch/mark" LD_PRELOAD="$scratch/disturb.so"
                [ -L mark ] || break 2
                runs=$((runs + 1))
                if [ "$status" != 137 ]; then answered "$what"; continue; fi
                kept "$what"
                is_before || is_new || failed "$what: OUT is neither the old file nor the new one"
                # What a killed run leaves is one file, and none in the way of the next run.
                files=$(left)
                [[ -z $files || $files =~ ^place/\.objtool-[0-9]+\.tmp$ ]] || failed "$what: left is $files"
                if [ "$case" = self ] && is_new; then continue; fi
                runs env
                [ "$status" = 0 ] && is_new || failed "$what: the next run ends with status $status"
                [ "$(left)" = "$files" ] || failed "$what: the next run left $(left)"
            done
        done
        [ "$call" -gt 4 ] || failed "$command, $case: only $((call - 1)) calls change files"
    done
done
command=check onwards=
echo "output file: $runs runs, each disturbed at one of its calls, lost nothing"

# A limit on the size of files, and a disk that has room for so many KiB more; where none can be mounted, again a limit.
limited() { runs bash -c "trap '' XFSZ; ulimit -f $1; exec \"\$@\"" bash; }
for case in new self; do
    lay "$case"
    limited 0
    answered "$case, a limit on sizes" 4
done
mounted=
need=$((($(stat -c %s wanted.check) + 4095) / 4096 * 4))
if mount -t tmpfs -o size=1m,nr_inodes=16 none place 2>/dev/null; then
    mounted=yes
    trap 'umount "$scratch/place" 2>/dev/null || true; rm -rf "$scratch"' EXIT
    roomy() { mount -o remount,size=1m place; }
    narrow() { mount -o "remount,size=$(($(df -k --output=used place | tail -n 1) + $1))k" place; }
    within() { narrow "$1"; runs env; roomy; }
else
    within() { limited "$1"; }
fi
for case in new old link self; do
    for room in 0 4 64 $((need - 4)); do
        lay "$case"
        within "$room"
        answered "$case, room for $room KiB" 4
    done
    lay "$case"
    within "$need"
    answered "$case, room for $need KiB" 0
done
echo "output file: a disk that fills up on the way leaves every file as it was${mounted:+ (mounted)}"

if [ -n "$mounted" ]; then
    for case in new old link self; do
        lay "$case"
        for ((i = 0; i < 16; i++)); do : 2>/dev/null >"place/in.o.$i" || break; done
        runs env
        rm -f place/in.o.*
        answered "$case, no file can be made" 4
        lay "$case"
        mount -o remount,ro place
        runs env
        answered "$case, a disk that can only be read" 4
        mount -o remount,rw place
    done
    # A link that leads to a full disk.
    lay old
    ln -s place/out.o over.o
    narrow 0
    input=in.o out=over.o
    runs env
    roomy
    faulted "a link to a full disk" over.o
    is_before && [ -z "$(left)" ] || failed "a link to a full disk: OUT changed"
    umount place
    echo "output file: no file can be made, a disk that can only be read, and a link to a full one"
fi

# Devices that take nothing and give no end, and no output.
input=in.o out=/dev/full
runs env
faulted "/dev/full" "$out"
[ -c /dev/full ] || failed "/dev/full is gone"
lay old
input=/dev/zero
runs env
advice="objtool: see objtool explain longer"$'\n'"objtool: $out stands from before this run"
[ "$status" = 2 ] && [ "$told" = "refused: /dev/zero is longer than 67108864 bytes"$'\n'"$advice" ] && is_before || failed "/dev/zero: status $status and '$told'"
"$program" dump wanted.check >/dev/full && status=0 || status=$?
[ "$status" = 5 ] || failed "dump, whose lines fail: status $status"
"$program" dump wanted.check >&- && status=0 || status=$?
[ "$status" = 5 ] || failed "dump without an output: status $status"
lay self
"$program" check "$out" "$out" <&- >&- 2>&- && status=0 || status=$?
[ "$status" = 0 ] && is_new || failed "check without an output: status $status"
echo "output file: devices, and no output"

# Folders and files that may not be written: of this user, or where this is root, of someone else.
user=()
if [ "$(id -u)" = 0 ]; then
    user=(setpriv --reuid 65534 --regid 65534 --clear-groups)
    "${user[@]}" ./objtool --version >/dev/null || failed "${user[*]} doesn't work"
    # A folder in which files may be made and those of others not replaced, and one in which none may be made.
    for mode in 1777 755; do
        for case in new old link; do
            lay "$case"
            [ -z "$before" ] || chmod 666 "$target"
            chmod "$mode" place
            runs "${user[@]}"
            answered "$case, a folder of mode $mode" $([ "$case $mode" = "new 1777" ] && echo 0 || echo 4)
        done
    done
fi
lay new
chmod 555 place
runs "${user[@]}"
answered "a closed folder" 4
for case in old link self; do
    lay "$case"
    chmod 444 "$target" && chmod 777 place
    runs "${user[@]}"
    answered "$case, a file that may not be written" 4
done
lay new
echo "output file: folders and files that may not be written${user:+, of someone else}"

# Permissions as after objcopy: of a new file, and of a file in its own place.
for mask in 022 027 077; do
    rm -f one.o other.o
    (umask "$mask" && objcopy in.o one.o && "$program" check in.o other.o)
    [ "$(stat -c %a one.o)" = "$(stat -c %a other.o)" ] || failed "a new file has mode $(stat -c %a other.o), that of objcopy $(stat -c %a one.o)"
done
for mode in 600 640 664 755; do
    cp in.o one.o && chmod "$mode" one.o && objcopy one.o
    cp in.o other.o && chmod "$mode" other.o && "$program" check other.o other.o
    [ "$(stat -c %a one.o)" = "$mode" ] && [ "$(stat -c %a other.o)" = "$mode" ] || failed "a file of mode $mode has $(stat -c %a other.o), that of objcopy $(stat -c %a one.o)"
done
if [ "$(id -u)" = 0 ]; then
    cp in.o other.o && chown 65534:65534 other.o && "$program" check in.o other.o
    [ "$(stat -c %u:%g other.o)" = 65534:65534 ] || failed "the owner changed"
fi
echo "output file: permissions as after objcopy"
