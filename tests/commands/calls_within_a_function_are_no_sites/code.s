    .text
    .globl f
    .type f, @function
f:
1:  call 2f
    int3
2:  call g
    add $8, %rsp
    ret
    .size f, .-f
    .section .discard.intra_function_calls, "", @progbits
    .quad 1b
