	.text
	.globl	f
	.type	f, @function
f:	.byte	0x74, 0x40
	ret
	.size	f, . - f
