	.text
	.globl	f
	.type	f, @function
f:	stac
	test	%edi, %edi
	je	1f
	call	g
	clac
	ret
1:	popf
	ret
	.size	f, . - f
