	.text
	.globl	f
	.type	f, @function
f:	push	%rbp
	mov	%rsp, %rbp
	call	g
	pop	%rbp
	ret
	.size	f, . - f
