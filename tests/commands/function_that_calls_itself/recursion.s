	.text
	.globl	f
	.type	f, @function
f:	push	%rbp
	push	%rbx
	sub	$24, %rsp
	mov	%rdi, %rbp
	call	g
	test	%eax, %eax
	je	1f
	call	f
1:	add	$24, %rsp
	pop	%rbx
	pop	%rbp
	ret
	.size	f, . - f
