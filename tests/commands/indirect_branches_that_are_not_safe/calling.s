	.text
	.globl	f
	.type	f, @function
f:	call	*%rax
	ret
	.size	f, . - f
