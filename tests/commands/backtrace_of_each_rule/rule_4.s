	.text
	.globl	f
	.type	f, @function
f:	test	%edi, %edi
	je	1f
	push	%rbx
	mov	%rdi, %rbx
1:	ret
	.size	f, . - f
