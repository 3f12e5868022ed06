	.text
	.globl	f
	.type	f, @function
f:	push	%rbx
	ret
	.size	f, . - f
