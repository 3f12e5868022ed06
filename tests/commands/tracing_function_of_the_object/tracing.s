	.text
	.globl	f, __fentry__
	.type	f, @function
f:	call	__fentry__
	ret
	.size	f, . - f
	.type	__fentry__, @function
__fentry__:
	ret
	.size	__fentry__, . - __fentry__
