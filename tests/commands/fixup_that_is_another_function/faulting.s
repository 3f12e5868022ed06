	.text
	.globl	f, g
	.type	f, @function
f:	push	%rbx
1:	mov	(%rdi), %rax
	pop	%rbx
	ret
	.size	f, . - f
	.type	g, @function
g:	ret
	.size	g, . - g
	.section __ex_table, "a", @progbits
	.long	1b - ., g - ., 0
