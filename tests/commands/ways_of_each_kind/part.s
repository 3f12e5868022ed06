	.text
	.globl	f
	.type	f, @function
f:	push	%rbx
	je	f.cold
	pop	%rbx
	ret
	.size	f, . - f
	.section .text.unlikely, "ax", @progbits
	nop
	.type	f.cold, @function
f.cold:	nop
	ret
	.size	f.cold, . - f.cold
