	.text
	.globl	f
	.type	f, @function
f:	jmp	__x86_indirect_thunk_rax
	.size	f, . - f
