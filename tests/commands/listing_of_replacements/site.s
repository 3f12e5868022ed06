	.text
	.globl	f
	.type	f, @function
f:	je	1f
	push	%rbx
	pop	%rbx
1:	nop
	nop
	nop
2:	ret
	.size	f, . - f
	.section .altinstr_replacement, "ax", @progbits
3:	push	%rbx
	pop	%rbx
4:	jmp	5f
5:
	.section .altinstructions, "a", @progbits
	.long	1b - ., 3b - .
	.word	0, 0
	.byte	3, 2
	.long	1b - ., 4b - .
	.word	0, 0
	.byte	3, 2
