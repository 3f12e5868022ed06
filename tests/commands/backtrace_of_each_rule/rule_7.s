	.text
	.globl	f
	.type	f, @function
f:	push	%rsp
	pop	%rsp
	ret
	.size	f, . - f
