    .text
    .globl f
    .type f, @function
f:
    call __x86_indirect_thunk_rax           # 0x0
    jmp __x86_indirect_thunk_r11            # 0x5
    jne __x86_indirect_thunk_array          # 0xa, of six bytes
    jmp __x86_return_thunk                  # 0x10
    je __x86_return_thunk                   # 0x15, of six bytes
    call g                                  # 0x1b
    call f                                  # 0x20, within the object
    jmp g                                   # 0x25: a tail call is no call
    call weak                               # 0x2a
    call *%rax                              # 0x2f: nor an indirect call,
    jmp *%rax                               # nor an indirect jump,
    ret                                     # nor a return as it stands
    ud2
    .size f, .-f
    .section .text.b, "ax"
    .type h, @function
h:
    jmp __x86_return_thunk                  # 0x0
    call f                                  # 0x5
    .size h, .-h
    .text
    .weak weak
    .type weak, @function
weak:
    ret
    .size weak, .-weak
