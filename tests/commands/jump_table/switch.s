	.text
	.globl	f
	.type	f, @function
f:	jmp	*table(,%rax,8)
1:	ret
2:	ret
3:	ret
	.size	f, . - f
	.section .rodata, "a", @progbits
table:	.quad	1b, 2b, 3b
