	.text
	.globl	f
	.type	f, @function
f:	ret	$8
	.size	f, . - f
.section .discard.unwind_hints, "", @progbits
.long	f
.word	0
.byte	5, 1, 0, 0, 0, 0
