	.text
	.globl	f
	.type	f, @function
f:	je	1f
	nop
1:	ret
	.size	f, . - f
	.section .discard.unwind_hints, "", @progbits
	.long	1b
	.word	0
	.byte	5, 7, 0, 0, 0, 0
