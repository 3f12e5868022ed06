	.text
	.globl	f
	.type	f, @function
f:	je	f.cold
1:	nop
	ret
	.size	f, . - f
label:	nop
	.type	local, @function
local:	ret
	.size	local, . - local
	.type	empty, @function
empty:	ret
	.size	empty, 0
	.section .text.unlikely, "ax", @progbits
	.type	f.cold, @function
f.cold:	ret
	.size	f.cold, . - f.cold
	.section .altinstr_replacement, "ax", @progbits
2:	push	%rbx
	.section .altinstructions, "a", @progbits
	.long	1b - ., 2b - .
	.word	0, 0
	.byte	1, 1
