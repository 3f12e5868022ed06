	.text
	.globl	f
	.type	f, @function
f:	push	%rbx
1:	mov	(%rdi), %rax
	jmp	*table(, %rax, 8)
2:	ret
3:	pop	%rbx
	ret
4:	pop	%rbx
	ret	$8
	.size	f, . - f
	.section .rodata, "a", @progbits
table:	.quad	2b, 3b
	.section __ex_table, "a", @progbits
	.long	1b - ., 4b - ., 0
