	.text
	.globl	f
	.type	f, @function
f:	jmp	2f
1:	nop
2:	nop
	ret
	.size	f, . - f
	.section .altinstr_replacement, "ax", @progbits
8:	.byte	0x66, 0x90
9:
	.section .altinstructions, "a", @progbits
	.long	1b - ., 8b - .
	.word	0, 0
	.byte	2, 9b - 8b
