	.text
	.globl	f
	.type	f, @function
f:	nop
	ret
	.size	f, . - f
	.section .altinstr_replacement, "ax", @progbits
8:	nop
9:
	.section .altinstructions, "a", @progbits
	.long	f - ., 8b - .
	.word	0, 0
	.byte	1, 9b - 8b
	.section .discard.unwind_hints, "", @progbits
	.long	f
	.word	0
	.byte	5, 7, 0, 0, 0, 0
