	.text
	.globl	f
	.type	f, @function
f:	push	%rbx
1:	nop
	je	2f
	iretq
2:	pop	%rbx
	ret
	.size	f, . - f
undefined:
	nop
end:	nop
call:	nop
regs:	nop
partial:
	nop
func:	ret
	.macro	hint place, offset, type, signal
	.long	\place
	.word	\offset
	.byte	5, \type, \signal, 0, 0, 0
	.endm
	.section .discard.unwind_hints, "", @progbits
	hint	undefined, 0, 0, 0
	hint	end, 0, 1, 0
	hint	call, 16, 2, 0
	hint	regs, 24, 3, 1
	hint	partial, 0, 4, 1
	hint	func, 8, 5, 0
	hint	1b, 0, 6, 0
	hint	2b, 0, 7, 0
