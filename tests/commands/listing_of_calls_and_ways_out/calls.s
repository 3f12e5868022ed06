	.text
	.globl	f
	.type	f, @function
f:	call	inner
	call	weak
	call	outside
	call	*%rax
	call	__x86_indirect_thunk_rax
	call	unchecked
	je	outside
	je	weak
	je	unchecked
	je	__x86_return_thunk
	jmp	__x86_indirect_thunk_rax
	.size	f, . - f
	.type	inner, @function
inner:	ret
	.size	inner, . - inner
	.weak	weak
	.type	weak, @function
weak:	ret
	.size	weak, . - weak
	.type	unchecked, @function
unchecked:
	ret
	.size	unchecked, . - unchecked
	.section .discard.func_stack_frame_non_standard, "", @progbits
	.quad	unchecked
