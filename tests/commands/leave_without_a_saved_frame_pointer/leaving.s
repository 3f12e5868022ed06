	.text
	.globl	f
	.type	f, @function
f:	leave
	ret
	.size	f, . - f
