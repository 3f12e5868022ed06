	.text
	.globl	f
	.type	f, @function
f:	push	%rbx
1:	jmp	8f
2:	pop	%rbx
	ret
	.size	f, . - f
	.section .altinstr_aux, "ax", @progbits
8:	test	$1, %al
	jmp	2b
