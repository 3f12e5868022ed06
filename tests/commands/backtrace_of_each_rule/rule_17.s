	.text
	.globl	f
	.type	f, @function
f:	ret
	.size	f, . - f
	.globl	g
	.type	g, @function
g:	nop
