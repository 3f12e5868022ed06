	.text
	.globl	f
	.type	f, @function
f:	call	*%rax
	ret
	.size	f, . - f
	.section .altinstr_replacement, "ax", @progbits
1:	push	%rax
	pop	%rax
	.section .altinstructions, "a", @progbits
	.long	f - ., 1b - .
	.word	0, 0
	.byte	2, 2
