	.text
	.globl	f
	.type	f, @function
f:	je	1f
	ret
1:	nop
	.size	f, . - f
