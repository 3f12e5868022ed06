	.text
	.globl	f
	.type	f, @function
f:	push	%rax
	push	%rax
	push	%rax
	push	%rax
	push	%rax
	iretq
	ret
	.size	f, . - f
