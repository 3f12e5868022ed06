	.text
	.globl	f
	.type	f, @function
f:	je	1f
	ret
1:	clc
	clc
	ret
	.size	f, . - f
	.section .altinstr_replacement, "ax", @progbits
2:	push	%rbx
3:	ret
	.section .altinstructions, "a", @progbits
	.long	1b - ., 2b - .
	.word	0, 0
	.byte	2, 2
