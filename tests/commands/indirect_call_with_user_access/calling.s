	.text
	.globl	f
	.type	f, @function
f:	stac
	call	*%rax
	clac
	ret
	.size	f, . - f
