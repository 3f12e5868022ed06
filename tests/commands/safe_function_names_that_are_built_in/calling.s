	.text
	.globl	f
	.type	f, @function
f:	stac
	call	{name}
	clac
	ret
	.size	f, . - f
