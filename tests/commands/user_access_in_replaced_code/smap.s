	.text
	.globl	f
	.type	f, @function
f:	nop
	nop
	nop
	mov	(%rdi), %rax
1:	nop
	nop
	nop
	ret
	.size	f, . - f
	.section .altinstr_replacement, "ax", @progbits
8:	stac
9:	clac
	.section .altinstructions, "a", @progbits
	.long	f - ., 8b - .
	.word	{feature}, 0
	.byte	3, 3
	.long	1b - ., 9b - .
	.word	{feature}, 0
	.byte	3, 3
