	.text
	.globl	pointer
	.type	pointer, @function
pointer:
	push	%rbp
	mov	%rsp, %rbp
	sub	$16, %rsp
	leave
	ret
	.size	pointer, . - pointer
	.globl	room
	.type	room, @function
room:	push	%rbp
	mov	%rsp, %rbp
	sub	%rax, %rsp
	leave
	ret
	.size	room, . - room
	.globl	masked
	.type	masked, @function
masked:	push	%rbp
	mov	%rsp, %rbp
	and	$-16, %rsp
	leave
	ret
	nop
	.size	masked, . - masked
gate:	pop	%rbx
	pop	%rbp
	iretq
	.section .discard.unwind_hints, "", @progbits
	.long	gate
	.word	0
	.byte	5, 3, 1, 0, 0, 0
