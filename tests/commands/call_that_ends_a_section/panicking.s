	.text
	.globl	f
	.type	f, @function
f:	call	panic
	.size	f, . - f
