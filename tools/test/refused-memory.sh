#!/usr/bin/env bash
# Runs each command of a table with each of its requests for memory refused in turn, one a run, and then with all behind it
# refused too: it ends with status 6, what it told is a beginning of the text that it tells with ample memory, and OUT is as
# it was. Or all is done as well: a list that can't grow to twice its length asks again for what it needs, and the line of the output
# that the standard error is made of need not be remembered.
#
# And `demo 3` makes at least as many requests as the three calls that it is made of: one that made up its numbers would make fewer. These
# calls are a test of command_tests, run alone by the program of tests that `rt ci` leaves; or TESTS names that program.
set -eu
. "$(dirname "$0")/../lib/prepare.sh"
needs "refused memory" gcc as ld python3
program=$(built)
tests=$(realpath -m "${TESTS:-$root/crates/command_tests/out/command_tests_tests}")
failed() { echo "refused memory: FAILED, $*"; exit 1; }
[ -x "$tests" ] || failed "no program of tests: rt ci makes it"
cd "$scratch"

gcc -O1 -shared -fPIC -o refuse.so "$here/refused-memory/refuse.c" -ldl

# object NAME: what the assembler makes of its standard input, passed through ld -r, which gives sections a symbol.
object() { as -o assembled - && ld -r -o "$1.o" assembled; }
# leaf NAME CODE: an object with one function.
leaf() { printf '\t.text\n\t.globl leaf\n\t.type leaf, @function\nleaf:\n\t%b\n\t.size leaf, .-leaf\n' "$2" | object "$1"; }
leaf straight 'push %rbx\n\tmov %rax, (%rdi)\n\tpop %rbx\n\tret'
leaf jumping 'test %rax, %rax\n\tje 1f\n\tpush %rbp\n\tmov %rsp, %rbp\n\tpop %rbp\n1:\tret'
leaf vector 'vzeroupper\n\tret'
leaf broken 'push %rbx\n\tje 1f\n\tcall far\n\tud2\n1:\tret\n\tret'
leaf unclosed 'ret\n\t.section .orc_unwind,"a"\n\t.text'
leaf thunks 'call __x86_indirect_thunk_rax\n\tcall far\n\tjmp __x86_return_thunk'
leaf taken 'ret\n\t.data\n\t.quad leaf\n\t.text'
leaf access 'stac\n\tcall near\n\tclac\n\tret'
head -c 300 straight.o >cut.o
# Code of two sections, one of them a function's seldom part; a call that doesn't return, and one through a pointer; a jump
# table. The assembler alone gives no section a symbol here.
cat >many.s <<'S'
	.text
	.globl	first, second
	.type	first, @function
first:	push	%rbp
	mov	%rsp, %rbp
	call	second
	jmp	*table(,%rax,8)
1:	call	*%rax
2:	je	first.cold
	pop	%rbp
	jmp	far
	.size	first, . - first
	.type	second, @function
second:	ret
	.size	second, . - second
	.section .text.unlikely,"ax",@progbits
	.type	first.cold, @function
first.cold:
	call	panic
	.size	first.cold, . - first.cold
	.section .rodata,"a",@progbits
table:	.quad	1b, 2b
S
as -o many.o many.s
# Each special section: an alternative, a static branch, an exception, hints that save and restore, an end that is reached, a
# function that is left unchecked.
object special <<'S'
	.text
	.type	first, @function
first:	push	%rbx
	nop
	nop
	nop
	mov	(%rdi), %rax
1:	pop	%rbx
	ret
2:	ud2
	jmp	1b
	.size	first, . - first
	.type	loose, @function
loose:	mov	%rax, %rsp
	ret
	.size	loose, . - loose
	.section .altinstr_replacement,"ax",@progbits
	call	far + 1
	.section .altinstructions,"a",@progbits
	.long	first + 1 - ., .altinstr_replacement - .
	.word	5, 0
	.byte	0, 0
	.long	first + 2 - ., .altinstr_replacement + 5 - .
	.word	5, 0
	.byte	1, 0
	.section __jump_table,"aw",@progbits
	.long	first + 3 - ., 2b - .
	.quad	0
	.section __ex_table,"a",@progbits
	.long	first + 4 - ., 1b - ., 0
	.section .discard.unwind_hints,"",@progbits
	.long	first + 3
	.word	0
	.byte	0, 6, 0, 0, 0, 0
	.long	1b
	.word	0
	.byte	0, 7, 0, 0, 0, 0
	.section .discard.reachable,"",@progbits
	.long	2b + 2
	.section .discard.func_stack_frame_non_standard,"",@progbits
	.quad	loose
S
# A function where stacks end, which calls another.
object ended <<'S'
	.text
	.type	first, @function
first:	call	*%rax
	ud2
	.size	first, . - first
	.type	second, @function
second:	push	%rbx
	pop	%rbx
	ret
	.size	second, . - second
	.section .discard.unwind_hints,"",@progbits
	.long	first
	.word	0
	.byte	5, 1, 0, 0, 0, 0
S
faulty() { { printf '\t.text\n\t.type leaf, @function\nleaf:\tnop\n\txor %%eax, %%eax\n\tret\n\t.size leaf, 4\n'; cat; } | object "$1"; }
faulty hinted <<<'	.section .discard.unwind_hints,""
	.long leaf, 0x09050008, 0'
faulty unsited <<<'	.section .altinstructions,"a"
	.long leaf - ., leaf - .
	.word 5, 0
	.byte 2, 1'
faulty unlisted <<<'	.section .discard.func_stack_frame_non_standard,""
	.quad leaf + 1'
faulty sized <<<'	.type other, @function
	.set other, leaf + 1
	.size other, 9'
printf 'noreturn far\nuaccess near\n' >names
printf 'noreturn far\nnear\n' >faulty_names

# The table of push %rbp; mov %rsp, %rbp; pop %rbp; ret.
cat >table.s <<'S'
	.text
	push %rbp
	mov %rsp, %rbp
	pop %rbp
	ret
	.section .orc_unwind, "a"
	.byte 8, 0, 0, 0, 5, 2
	.byte 16, 0, 0xf0, 0xff, 0x15, 2
	.byte 16, 0, 0xf0, 0xff, 0x14, 2
	.byte 8, 0, 0, 0, 5, 2
	.byte 0, 0, 0, 0, 0, 0
	.section .orc_unwind_ip, "a"
	.long .text - .
	.long .text + 1 - .
	.long .text + 4 - .
	.long .text + 5 - .
	.long .text + 6 - .
S
as -o table.o table.s
# Behind the push in a function that the first one called; an image whose memory ends behind the last address; and one that
# places a section that isn't text.
cat >two_frames <<'I'
regs 1001 8000 5
place 1 1000
mem 8000 20800000000000000510000000000000
mem 8020 7700000000000000000000a000000000
I
printf 'regs 1 2 3\nmem ffffffffffffffff 0000\n' >wraps
printf 'regs 1 2 3\nplace 2 1000\n' >misplaced
printf 'regs 1005 8000 5\nplace 1 1000\nmem 8008 0210000000000000\n' >in_second
"$program" check ended.o ended.checked.o || failed "an object isn't accepted"
# Site lists, call frame information, and a table of two objects; a layout that names none, and one in which sections lie over one another.
"$program" sites thunks.o listed.o && "$program" cfi jumping.o framed.o || failed "an object isn't given lists or frames"
printf 'file table.o\nplace 1 1000\nfile ended.checked.o\nplace 1 2000\n' >layout
printf 'file table.o\nplace 1 1000\nfile none.o\nplace 1 2000\n' >lacking_layout
printf 'file table.o\nplace 1 1000\nfile ended.checked.o\nplace 1 1001\n' >crowded_layout
"$program" merge layout merged || failed "a table isn't merged"
head -c 40 merged >cut_table

# The worked objects that together come to every request of `check`, with their tables and an image for each: at the first
# instruction, unless the walk is longer from another one.
python3 -B "$root/tools/model/worked.py" .
at_start='regs 1000 8000 5\nplace 1 1000\nmem 8000 00000081ffffffff\n'
recursive='regs 1006 8000 0\nplace 1 1000\nmem 8020 11000000000000001710000000000000\nmem 8050 22000000000000001710000000000000\nmem 8080 330000000000000000000081ffffffff\n'
declare -A images=(
    [a-frame-pointer]=$at_start
    [pushes-and-calls]=$recursive
    [a-site-with-a-padded-replacement]=$at_start
    [a-static-branch-to-a-part]="${at_start}place 2 2000\n"
    [a-jump-table]=$at_start
    [the-end-of-the-stack]='regs 1005 8000 5\nplace 1 1000\nmem 8008 0210000000000000\n'
    [the-same-of-a-safe-function]=$at_start
    [a-section-without-a-symbol]=$at_start
)
declare -A options=([the-same-of-a-safe-function]=" --uaccess --names=the-same-of-a-safe-function.names")
worked=()
for name in "${!images[@]}"; do
    printf "${images[$name]}" >"$name.image"
    "$program" check "$name.o" "$name.checked.o" ${options[$name]:-} || failed "$name isn't accepted"
    worked+=("0 check $name.o out${options[$name]:-}" "0 dump $name.checked.o" "0 unwind $name.checked.o $name.image")
done

# Status with ample memory, and the words. OUT is `out`, which isn't there, or IN itself.
commands=(
    "0 --help"
    "0 --version"
    "3"
    "3 check"
    "3 check straight.o out --fp --fp"
    "0 check straight.o out"
    "0 check itself.o itself.o"
    "0 check jumping.o out --no-unreachable --names=names"
    "0 check many.o out"
    "0 check special.o out --fp"
    "0 check ended.o out"
    "0 check access.o out --uaccess --names=names"
    "1 check access.o out --uaccess --rethunk --retpoline"
    "1 check broken.o out --fp"
    "2 check missing.o out"
    "2 check cut.o out"
    "2 check vector.o out"
    "2 check unclosed.o out"
    "2 check hinted.o out"
    "2 check unsited.o out"
    "2 check unlisted.o out"
    "2 check sized.o out"
    "2 check straight.o out --names=faulty_names"
    "4 check straight.o no/out"
    "0 dump table.o"
    "2 dump straight.o"
    "0 dump ended.checked.o"
    "0 unwind table.o two_frames"
    "0 unwind ended.checked.o in_second"
    "2 unwind table.o wraps"
    "2 unwind table.o misplaced"
    "0 demo 3"
    "0 sites thunks.o out"
    "0 sites many.o out --all-opcodes --names=names"
    "2 sites vector.o out"
    "2 sites listed.o out"
    "0 list listed.o"
    "2 list cut.o"
    "0 cfi jumping.o out"
    "0 cfi special.o out --all-opcodes --names=names"
    "1 cfi broken.o out"
    "2 cfi framed.o out"
    "0 cfa framed.o"
    "2 cfa cut.o"
    "0 merge layout out"
    "2 merge lacking_layout out"
    "2 merge crowded_layout out"
    "2 merge names out"
    "0 find merged 2001"
    "0 entry special.o --noinstr --all-opcodes --names=names"
    "1 entry straight.o --sls"
    "1 entry taken.o --ibt"
    "2 entry vector.o --sls"
    "2 find cut_table 1000"
    "0 show special.o"
    "0 show many.o --function=first.cold --all-opcodes --names=names"
    "2 show many.o --function=third"
    "2 show vector.o"
    "1 check broken.o out --fp --backtrace"
    "1 check a-site-that-pushes.o out --backtrace"
    "0 explain"
    "0 explain 4"
    "1 check a-site-that-pushes.o out"
    "1 check a-jump-table-that-ends.o out"
    "1 check a-call-with-user-access-on.o out --uaccess"
    "${worked[@]}"
)

printf '%s\n' "${commands[@]}" >commands
python3 "$here/refused-memory/refused.py" "$program" "$scratch/refuse.so" "$scratch" <commands

# count WORD..: how many requests a program makes, which has to end with status 0 and print the line of `demo 3`.
count() {
    COUNT=$scratch/count LD_PRELOAD=$scratch/refuse.so "$@" >printed
    grep -qx 'demo 3: functions 3, instructions 15, rows 11, text bytes 29' printed && cat count
}
parts=$(count "$tests" tests::calls::demo_3_in_three_calls) || failed "the three calls print no line of demo 3"
whole=$(count "$program" demo 3) || failed "demo 3 prints another line"
[ "$parts" -gt 100 ] && [ "$whole" -ge "$parts" ] || failed "demo 3 makes $whole requests, and its three calls $parts"
echo "refused memory: demo 3 makes $whole requests, and its three calls $parts"
