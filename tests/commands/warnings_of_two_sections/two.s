	.text
	.globl	f, g
	.type	f, @function
f:	push	%rbx
	ret
	.size	f, . - f
	.section .text.other, "ax", @progbits
	.type	g, @function
g:	pop	%rbx
	.size	g, . - g
	.section .text.more, "ax", @progbits
	.type	h, @function
h:	push	%rbx
	ret	$8
	.size	h, . - h
