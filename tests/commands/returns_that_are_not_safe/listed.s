	.text
	.globl	f
	.type	f, @function
f:	nop
1:	ret
	.size	f, . - f
.section .discard.retpoline_safe, "", @progbits
.quad	1b
