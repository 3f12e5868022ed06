	.text
	.globl	f, g
	.type	f, @function
f:	call	g
	ret
	.size	f, . - f
	.type	g, @function
g:	call	f
	ret
	.size	g, . - g
