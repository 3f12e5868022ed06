	.text
	.globl	f
	.type	f, @function
f:	ret
	nop
	push	%rbx
	pop	%rbx
	ret
	.size	f, . - f
