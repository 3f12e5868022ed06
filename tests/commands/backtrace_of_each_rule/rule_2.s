	.text
	.globl	f, g
	.type	f, @function
f:	nop
	.size	f, . - f
	.type	g, @function
g:	ret
	.size	g, . - g
