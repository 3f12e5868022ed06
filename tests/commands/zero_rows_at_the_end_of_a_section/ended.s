	.text
	.globl	f
	.type	f, @function
f:	ud2
	.size	f, . - f
ud2
