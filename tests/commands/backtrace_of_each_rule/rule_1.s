	.text
	.globl	f
	.type	f, @function
f:	je	1f
	ret
1:	.byte	0x74, 0x40
	ret
	.size	f, . - f
