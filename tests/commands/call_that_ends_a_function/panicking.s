	.text
	.globl	f, h
	.type	f, @function
f:	push	%rbx
	call	panic
	.size	f, . - f
	.type	h, @function
h:	ret
	.size	h, . - h
