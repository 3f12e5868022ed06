	.text
	.globl	f
	.type	f, @function
f:	je	f.cold
	ret
	.size	f, . - f
	nop
	.type	g, @function
g:	push	%rbx
	je	g.cold
	ret
	.size	g, . - g
	.section .text.unlikely, "ax", @progbits
	.type	f.cold, @function
f.cold:	nop
	.size	f.cold, . - f.cold
	.type	g.cold, @function
g.cold:	ret
	.size	g.cold, . - g.cold
	.section .discard.func_stack_frame_non_standard, "", @progbits
	.quad	g
