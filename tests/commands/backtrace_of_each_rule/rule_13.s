	.text
	.globl	f
	.type	f, @function
f:	push	%rbx
	pop	%rbx
	jmp	2f
1:	nop
2:	nop
	ret
	.size	f, . - f
	.section .altinstr_replacement, "ax", @progbits
3:	.byte	0x66, 0x90
	.section .altinstructions, "a", @progbits
	.long	1b - ., 3b - .
	.word	0, 0
	.byte	2, 2
