	.text
	.globl	f
	.weak	g
	.type	f, @function
f:	call	g
	ret
	.size	f, . - f
	.type	g, @function
g:	push	%rbx
	pop	%rbx
	ret
	.size	g, . - g
