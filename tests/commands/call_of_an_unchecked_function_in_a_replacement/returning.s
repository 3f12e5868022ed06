	.text
	.globl	f
	.type	f, @function
f:
1:	.byte	0x0F, 0x1F, 0x80, 0, 0, 0, 0
2:	ret
	.size	f, . - f
	.section .init.text, "ax", @progbits
	.type	away, @function
away:	mov	%rax, %rsp
	ret
	.size	away, . - away
	.section .altinstr_replacement, "ax", @progbits
7:	push	%rax
	.byte	0xE8
	.reloc	., R_X86_64_PLT32, away - 4
	.long	0
8:	push	%rax
	.byte	0xE8, 0, 0, 0, 0
	.type	nowhere, @function
nowhere:	ret
	.size	nowhere, . - nowhere
9:
	.section .altinstructions, "a", @progbits
	.long	1b - ., 7b - .
	.word	0, 0
	.byte	2b - 1b, 8b - 7b
	.long	1b - ., 8b - .
	.word	0, 0
	.byte	2b - 1b, 9b - 8b
	.section .discard.func_stack_frame_non_standard, "", @progbits
	.quad	away, nowhere
