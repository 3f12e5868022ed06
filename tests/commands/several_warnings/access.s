	.text
	.globl	f
	.type	f, @function
f:	stac
	call	g
	clac
	ret
	.size	f, . - f
