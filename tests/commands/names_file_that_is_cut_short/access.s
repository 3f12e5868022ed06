	.text
	.globl	f
	.type	f, @function
f:	stac
	call	memcpy
	clac
	ret
	.size	f, . - f
