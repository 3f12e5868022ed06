	.text
	.globl	f
	.type	f, @function
f:	call	__fentry__
	ret
	.size	f, . - f
