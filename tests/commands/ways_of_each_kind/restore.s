	.text
	.globl	f
	.type	f, @function
f:	push	%rbx
1:	test	%edi, %edi
	je	2f
	iretq
2:	nop
	ret
	.size	f, . - f
	.section .discard.unwind_hints, "", @progbits
	.long	1b
	.word	0
	.byte	5, 6, 0, 0, 0, 0
	.long	2b
	.word	0
	.byte	5, 7, 0, 0, 0, 0
