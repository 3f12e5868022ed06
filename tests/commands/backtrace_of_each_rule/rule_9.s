	.text
	.globl	f
	.type	f, @function
f:	pop	%rbx
	ret
	.size	f, . - f
