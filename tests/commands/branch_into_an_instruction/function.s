	.text
	.globl	f
	.type	f, @function
f:	.byte	0x74, 1
	mov	$1, %eax
	ret
	.size	f, . - f
