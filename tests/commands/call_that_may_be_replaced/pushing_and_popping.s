	.text
	.globl	f
	.type	f, @function
f:	call	*p(%rip)
	ret
	.size	f, . - f
	.section .altinstr_replacement, "ax", @progbits
8:	pushf
	pop	%rax
9:
	.section .altinstructions, "a", @progbits
	.long	f - ., 8b - .
	.word	0, 0
	.byte	6, 9b - 8b
