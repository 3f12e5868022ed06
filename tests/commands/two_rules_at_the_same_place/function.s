	.text
	.globl	f
	.type	f, @function
f:	push	%rbx
	nop
	.size	f, . - f
