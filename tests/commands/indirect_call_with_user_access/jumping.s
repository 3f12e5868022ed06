	.text
	.globl	f
	.type	f, @function
f:	stac
	jmp	memcpy
	.size	f, . - f
