    .text
    .type f, @function
f:  push %rbx                   # 0x0
    .fill 0x3e, 1, 0x90         # 0x1
    pop %rbx                    # 0x3f
    push %rbx                   # 0x40
    .fill 0x3f, 1, 0x90         # 0x41
    pop %rbx                    # 0x80
    .fill 0xff, 1, 0x90         # 0x81
    push %rbx                   # 0x180
    .fill 0xffff, 1, 0x90       # 0x181
    pop %rbx                    # 0x10180
    sub $0x80, %rsp             # 0x10181
    sub $0x3f80, %rsp           # 0x10188
    add $0x4000, %rsp           # 0x1018f
    ret                         # 0x10196
    .size f, .-f
