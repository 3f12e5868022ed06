	.text
	.globl	f
	.type	f, @function
f:	push	%rbx
	jmp	1f
	.size	f, . - f
	.type	g, @function
g:
1:	ret
	.size	g, . - g
