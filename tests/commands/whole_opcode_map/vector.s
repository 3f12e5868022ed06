	.text
	.globl	f
	.type	f, @function
f:	vzeroupper
	ret
	.size	f, . - f
