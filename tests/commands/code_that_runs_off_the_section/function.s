	.text
	.globl	f
	.type	f, @function
f:	nop
	.size	f, . - f
