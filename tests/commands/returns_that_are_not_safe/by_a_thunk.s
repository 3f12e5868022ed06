	.text
	.globl	f
	.type	f, @function
f:	jmp	__x86_return_thunk
	.size	f, . - f
