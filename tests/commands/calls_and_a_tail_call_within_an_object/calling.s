	.text
	.globl	f, g
	.type	f, @function
f:	call	g
	jmp	g
	.size	f, . - f
	.section .text.other, "ax", @progbits
	.type	g, @function
g:	ret
	.size	g, . - g
