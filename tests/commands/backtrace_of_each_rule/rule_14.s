	.text
	.globl	f
	.type	f, @function
f:	ret
	push	%rbx
	ret
	.size	f, . - f
