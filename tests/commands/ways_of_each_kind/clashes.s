	.text
	.globl	f
	.type	f, @function
f:	push	%rbx
1:	mov	(%rdi), %rax
	je	3f
	jmp	*table(, %rax, 8)
2:	pop	%rbx
	ret
3:	push	%rcx
	je	2b
	pop	%rcx
	pop	%rbx
	jmp	4f
	nop
4:	ret
5:	pop	%rbx
6:	ret
	.size	f, . - f
	.globl	g
	.type	g, @function
g:	mov	(%rsi), %rax
	push	%rbx
	je	7f
	pop	%rbx
8:	ret
7:	push	%rcx
	mov	(%rsi), %rax
	pop	%rcx
	pop	%rbx
	ret
	.size	g, . - g
	.section .rodata, "a", @progbits
table:	.quad	2b, 6b
	.section __ex_table, "a", @progbits
	.long	1b - ., 5b - ., 0
	.long	g - ., 8b - ., 0
	.long	7b + 1 - ., 8b - ., 0
