	.text
	.globl	f
	.type	f, @function
f:	call	{name}
	.size	f, . - f
