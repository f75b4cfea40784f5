/* Changes of stacks on x86-64, as the System V ABI wants registers kept. The server computes with no
   floating point, so its control words stay those of the thread. This file does not say that it
   keeps a shadow stack, so a program that has it is run without one. */
#if !defined __x86_64__
#error "only x86-64"
#endif
        .text

/* void tiswenor_inside_switch(void **from, void *to) */
        .globl  tiswenor_inside_switch
        .hidden tiswenor_inside_switch
        .type   tiswenor_inside_switch, @function
        .p2align 4
tiswenor_inside_switch:
        .cfi_startproc
        pushq   %rbp
        .cfi_adjust_cfa_offset 8
        pushq   %rbx
        .cfi_adjust_cfa_offset 8
        pushq   %r12
        .cfi_adjust_cfa_offset 8
        pushq   %r13
        .cfi_adjust_cfa_offset 8
        pushq   %r14
        .cfi_adjust_cfa_offset 8
        pushq   %r15
        .cfi_adjust_cfa_offset 8
        movq    %rsp, (%rdi)
        movq    %rsi, %rsp
        popq    %r15
        .cfi_adjust_cfa_offset -8
        popq    %r14
        .cfi_adjust_cfa_offset -8
        popq    %r13
        .cfi_adjust_cfa_offset -8
        popq    %r12
        .cfi_adjust_cfa_offset -8
        popq    %rbx
        .cfi_adjust_cfa_offset -8
        popq    %rbp
        .cfi_adjust_cfa_offset -8
        popq    %rcx
        .cfi_adjust_cfa_offset -8
        .cfi_register %rip, %rcx
        jmpq    *%rcx                   /* not ret, whose address the processor would guess wrong */
        .cfi_endproc
        .size   tiswenor_inside_switch, .-tiswenor_inside_switch

/* Where a new stack begins: rbx has a function, which does not return, and r12 what it is given. */
        .globl  tiswenor_inside_begin
        .hidden tiswenor_inside_begin
        .type   tiswenor_inside_begin, @function
        .p2align 4
tiswenor_inside_begin:
        .cfi_startproc
        .cfi_undefined %rip
        movq    %r12, %rdi
        callq   *%rbx
        ud2
        .cfi_endproc
        .size   tiswenor_inside_begin, .-tiswenor_inside_begin

        .section .note.GNU-stack, "", @progbits
