	.text
	.globl	f
	.type	f, @function
f:	nop
1:	jmp	*%rax
	.size	f, . - f
.section .discard.retpoline_safe, "", @progbits
.quad	1b
