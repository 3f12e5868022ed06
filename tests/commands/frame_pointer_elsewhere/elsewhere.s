	.text
	.globl	f
	.type	f, @function
f:	push	%rbp
	lea	8(%rsp), %rbp
	pop	%rbp
	ret
	.size	f, . - f
