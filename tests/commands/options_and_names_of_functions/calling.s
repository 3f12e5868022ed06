	.text
	.globl	f
	.type	f, @function
f:	call	g
	.size	f, . - f
