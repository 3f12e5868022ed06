	.text
	.globl	f, g
	.type	f, @function
	.type	g, @function
f:
g:	ret
	.size	f, . - f
