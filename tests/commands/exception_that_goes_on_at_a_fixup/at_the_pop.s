	.text
	.globl	f
	.type	f, @function
f:	push	%rbx
1:	mov	(%rdi), %rax
2:	pop	%rbx
3:	ret
	.size	f, . - f
.section __ex_table, "a", @progbits
.long	1b - ., 2b - ., 0
