	.text
	.globl	f
	.type	f, @function
f:	jmp	*table(,%rax,8)
1:	ret
2:	ret
3:	ret
	.size	f, . - f
	.type	h, @function
h:	ret
	.size	h, . - h
	.section .rodata, "a", @progbits
table:	.quad	1b, 2b, h
