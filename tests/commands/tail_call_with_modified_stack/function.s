	.text
	.globl	f
	.type	f, @function
f:	push	%rbx
	jmp	g
	.size	f, . - f
