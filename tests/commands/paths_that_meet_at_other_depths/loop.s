	.text
	.globl	f
	.type	f, @function
f:
1:	push	%rbx
	jmp	1b
	.size	f, . - f
