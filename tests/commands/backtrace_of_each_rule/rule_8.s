	.text
	.globl	f
	.type	f, @function
f:	mov	$1, %ebp
	ret
	.size	f, . - f
