	.text
	.globl	f
	.type	f, @function
f:	call	g
	ret
	.size	f, . - f
