	.text
	.globl	f
	.type	f, @function
f:	je	2f
	jmp	*table(,%rax,8)
2:	jmp	*table(,%rax,8)
3:	ret
4:	ret
	.size	f, . - f
	.section .rodata, "a", @progbits
table:	.quad	3b, 4b
