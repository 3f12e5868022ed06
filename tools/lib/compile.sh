# Sourced behind prepare.sh, by what compiles C as the kernel's code is compiled.
# compile_all FOLDER FLAG..: compiles each tools/test/gcc-objects/NAME.c by gcc, with these flags besides, as FOLDER/NAME.o, and with
# frame pointers as FOLDER/NAME.framed.o. The kernel's own flags leave no padding within functions and no room below rsp. The objects
# tell frames for every address, since assembly in them tells its own.
compile_all() {
    local folder=$1 source name flags
    shift
    flags="-O2 -ffreestanding -fno-pic -mcmodel=kernel -mno-red-zone -mpreferred-stack-boundary=3 -mskip-rax-setup"
    flags+=" -falign-jumps=1 -falign-loops=1 -falign-labels=1 -mno-sse -mno-mmx -mno-80387 -mgeneral-regs-only -fno-jump-tables"
    flags+=" -fcf-protection=none -fno-stack-protector -fno-stack-clash-protection -fasynchronous-unwind-tables"
    for source in "$root"/tools/test/gcc-objects/*.c; do
        name=$(basename "$source" .c)
        gcc $flags -fomit-frame-pointer "$@" -c -o "$folder/$name.o" "$source"
        gcc $flags -fno-omit-frame-pointer -DFRAMES "$@" -c -o "$folder/$name.framed.o" "$source"
    done
}
