	.text
	.globl	f
	.type	f, @function
f:	push	%rbp
	mov	$1, %ebp
	pop	%rbx
	ret
	.size	f, . - f
