	.text
	.globl	f
	.type	f, @function
f:
1:	.byte	0x0F, 0x1F, 0x44, 0, 0
	.size	f, . - f
2:	ret
	.section .altinstr_replacement, "ax", @progbits
8:	.byte	0xE9
	.reloc	., R_X86_64_PC32, 2b - 4
	.long	0
9:
	.section .altinstructions, "a", @progbits
	.long	1b - ., 8b - .
	.word	0, 0
	.byte	5, 9b - 8b
