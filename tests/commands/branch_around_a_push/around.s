	.text
	.globl	f
	.type	f, @function
f:	test	%edi, %edi
	je	1f
	push	%rbp
	pop	%rbp
1:	ret
	.size	f, . - f
