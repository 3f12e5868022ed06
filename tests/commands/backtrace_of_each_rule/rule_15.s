	.text
	.globl	f
	.type	f, @function
f:	syscall
	.size	f, . - f
