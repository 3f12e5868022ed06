	.text
	.globl	f
	.type	f, @function
f:	test	%edi, %edi
	jne	1f
	ret
	jmp	*%rax
1:	call	*%rax
	jmp	*%rax
	.size	f, . - f
