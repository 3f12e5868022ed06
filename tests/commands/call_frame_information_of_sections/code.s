    .text
    nop
    nop
    nop
    nop
    .type f, @function
f:  push %rbx
    pop %rbx
    ret
    .size f, .-f
    .section .text.b, "ax"
    .type g, @function
g:  ret
    .size g, .-g
    .section .text.c, "ax"
