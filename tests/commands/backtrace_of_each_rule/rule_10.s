	.text
	.globl	f
	.type	f, @function
f:	sub	$40000, %rsp
	add	$40000, %rsp
	ret
	.size	f, . - f
