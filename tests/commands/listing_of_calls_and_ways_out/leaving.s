	.text
	.globl	f
	.type	f, @function
f:	je	1f
	jmp	*%rax
1:	syscall
	ret	$8
	.size	f, . - f
