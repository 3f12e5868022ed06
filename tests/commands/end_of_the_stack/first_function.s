	.text
	.globl	f, g
	.type	f, @function
f:	call	*%rax
	ud2
	.size	f, . - f
	.type	g, @function
g:	push	%rbx
	pop	%rbx
	ret
	.size	g, . - g
	.section .discard.unwind_hints, "", @progbits
	.long	f
	.word	0
	.byte	5, 1, 0, 0, 0, 0
