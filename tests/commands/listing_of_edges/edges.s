	.text
	.globl	f
	.type	f, @function
f:	je	2f
1:	mov	(%rdi), %rax
	.byte	0x0f, 0x1f, 0x44, 0x00, 0x00
	jmp	*table(, %rax, 8)
2:	call	3f
	int3
3:	pop	%rax
4:	jmp	g
5:	ret
	.size	f, . - f
	.type	g, @function
g:	ret
	.size	g, . - g
	.section .rodata, "a", @progbits
table:	.quad	4b, 5b, 4b
	.section __ex_table, "a", @progbits
	.long	1b - ., 5b - ., 0
	.section __jump_table, "aw", @progbits
	.long	1b + 3 - ., 5b - .
	.quad	0
	.section .discard.intra_function_calls, "", @progbits
	.long	2b
