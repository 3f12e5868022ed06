	.text
	.globl	f
	.type	f, @function
f:	nop
1:	nop
	je	3f
2:	iretq
3:	ret
	.size	f, . - f
.section .discard.unwind_hints, "", @progbits
.long	1b
.word	0
.byte	5, 6, 0, 0, 0, 0
.long	2b
.word	0
.byte	5, 0, 0, 0, 0, 0
.long	3b
.word	0
.byte	5, 7, 0, 0, 0, 0
