	.text
	.globl	f
	.type	f, @function
f:	ret
	.size	f, . - f
gate:	test	%edi, %edi
	je	1f
	iretq
1:	pop	%rax
	iretq
	.section .discard.unwind_hints, "", @progbits
	.long	gate
	.word	0
	.byte	5, 4, 1, 0, 0, 0
