	.text
	.globl	f
	.type	f, @function
f:	push	%rbp
	mov	%rsp, %rbp
	pop	%rbp
	jmp	__x86_return_thunk
	.size	f, . - f
