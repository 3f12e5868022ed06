	.text
	.globl	f
	.type	f, @function
f:	push	%rbx
	{instruction}
1:	pop	%rbx
	ret
	.size	f, . - f
	.section {list}, "", @progbits
	.long	1b
