	.text
	.globl	f
	.type	f, @function
f:	push	%rbp
	mov	%rsp, %rbp
	sub	$40000, %rsp
	leave
	ret
	.size	f, . - f
