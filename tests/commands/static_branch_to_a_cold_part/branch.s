	.text
	.globl	f
	.type	f, @function
f:	push	%rbx
1:	.byte	0x0F, 0x1F, 0x44, 0, 0
2:	pop	%rbx
	ret
	.size	f, . - f
	.section .text.unlikely, "ax", @progbits
	.type	f.cold, @function
f.cold:	nop
	jmp	2b
	.size	f.cold, . - f.cold
	.section __jump_table, "aw", @progbits
	.long	1b - ., f.cold - .
	.quad	0
