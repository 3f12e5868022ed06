	.text
	.globl	f
	.type	f, @function
f:	push	%rbx
	pop	%rbx
	ret
	.size	f, . - f
1:	push	%rax
	pop	%rax
	iretq
	.section .discard.unwind_hints, "", @progbits
	.long	1b
	.word	0
	.byte	5, 4, 1, 0, 0, 0
