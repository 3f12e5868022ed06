	.text
	.globl	f
	.weak	g
	.type	f, @function
f:	push	%rbx
	jmp	g
	.size	f, . - f
	.section .text.other, "ax", @progbits
	.type	g, @function
g:	ret
	.size	g, . - g
