	.text
	.globl	f
	.type	f, @function
f:	ret
	ret
	.size	f, . - f
