	.text
	.globl	f
	.type	f, @function
f:	mov	%rax, %rsp
	ret
	.size	f, . - f
	.section .discard.func_stack_frame_non_standard, "", @progbits
	.quad	f
