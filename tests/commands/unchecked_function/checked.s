	.text
	.globl	f
	.type	f, @function
f:	mov	%rax, %rsp
	ret
	.size	f, . - f
