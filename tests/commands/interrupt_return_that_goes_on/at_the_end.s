	.text
	.globl	f
	.type	f, @function
f:	iretq
	.size	f, . - f
