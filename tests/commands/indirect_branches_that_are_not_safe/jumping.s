	.text
	.globl	f
	.type	f, @function
f:	jmp	*%rax
	.size	f, . - f
