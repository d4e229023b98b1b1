/* Registers as a whole, and the calls that need them: those that raise exceptions, those that may touch what isn't there. The offsets are those of KzContext. */
    .macro STUB name
    .globl kz_stub_\name
kz_stub_\name:
    .endm
    .macro XMM how, from, base
    .irp n, 6, 7, 8, 9, 10, 11, 12, 13, 14, 15
    \how \n, \from, \base
    .endr
    .endm
    .macro SAVE_XMM n, at, base
    movaps %xmm\n, \at+16*\n(\base)
    .endm
    .macro LOAD_XMM n, at, base
    movaps \at+16*\n(\base), %xmm\n
    .endm

    .text
/* void kz_restore(const KzContext *): its last steps take three words below the stack's pointer, where code of Windows keeps nothing. */
    .globl kz_restore
kz_restore:
    ldmxcsr 0x34(%rdi)
    .irp n, 0, 1, 2, 3, 4, 5, 6, 7, 8, 9, 10, 11, 12, 13, 14, 15
    movaps 0x1a0+16*\n(%rdi), %xmm\n
    .endr
    mov 0x98(%rdi), %rax
    sub $24, %rax
    mov 0xb0(%rdi), %rcx
    mov %rcx, (%rax)
    mov 0x44(%rdi), %ecx
    mov %rcx, 8(%rax)
    mov 0xf8(%rdi), %rcx
    mov %rcx, 16(%rax)
    mov %rax, %rsp
    mov 0x78(%rdi), %rax
    mov 0x80(%rdi), %rcx
    mov 0x88(%rdi), %rdx
    mov 0x90(%rdi), %rbx
    mov 0xa0(%rdi), %rbp
    mov 0xa8(%rdi), %rsi
    mov 0xb8(%rdi), %r8
    mov 0xc0(%rdi), %r9
    mov 0xc8(%rdi), %r10
    mov 0xd0(%rdi), %r11
    mov 0xd8(%rdi), %r12
    mov 0xe0(%rdi), %r13
    mov 0xe8(%rdi), %r14
    mov 0xf0(%rdi), %r15
    pop %rdi
    popfq
    ret

/* From a rewritten instruction (level.c), which leaves every register but one as it is: what is on top of the stack behind the return address says which. */
    .globl kz_level_entry
kz_level_entry:
    pushfq
    .irp r, r15, r14, r13, r12, r11, r10, r9, r8, rdi, rsi, rbp, rsp, rbx, rdx, rcx, rax
    push %\r
    .endr
    mov %rsp, %rdi
    mov 0x90(%rsp), %esi
    mov %rsp, %rbp
    and $-16, %rsp
    sub $0x100, %rsp
    .irp n, 0, 1, 2, 3, 4, 5, 6, 7, 8, 9, 10, 11, 12, 13, 14, 15
    movaps %xmm\n, 16*\n(%rsp)
    .endr
    cld
    call kz_pass_level
    .irp n, 0, 1, 2, 3, 4, 5, 6, 7, 8, 9, 10, 11, 12, 13, 14, 15
    movaps 16*\n(%rsp), %xmm\n
    .endr
    mov %rbp, %rsp
    .irp r, rax, rcx, rdx, rbx
    pop %\r
    .endr
    add $8, %rsp
    .irp r, rbp, rsi, rdi, r8, r9, r10, r11, r12, r13, r14, r15
    pop %\r
    .endr
    popfq
    ret $8

    .globl kz_fault_entry
kz_fault_entry:
    cld
    call kz_fault
    ud2

/* A context on the stack, with the caller's registers as they are behind its call. 8 bytes more keep the stack's alignment. */
    .macro CAPTURE
    sub $0x4d8, %rsp
    mov %rax, 0x78(%rsp)
    mov %rcx, 0x80(%rsp)
    mov %rdx, 0x88(%rsp)
    mov %rbx, 0x90(%rsp)
    lea 0x4e0(%rsp), %rax
    mov %rax, 0x98(%rsp)
    mov %rbp, 0xa0(%rsp)
    mov %rsi, 0xa8(%rsp)
    mov %rdi, 0xb0(%rsp)
    mov %r8, 0xb8(%rsp)
    mov %r9, 0xc0(%rsp)
    mov %r10, 0xc8(%rsp)
    mov %r11, 0xd0(%rsp)
    mov %r12, 0xd8(%rsp)
    mov %r13, 0xe0(%rsp)
    mov %r14, 0xe8(%rsp)
    mov %r15, 0xf0(%rsp)
    mov 0x4d8(%rsp), %rax
    mov %rax, 0xf8(%rsp)
    XMM SAVE_XMM, 0x1a0, %rsp
    stmxcsr 0x34(%rsp)
    movl $0x202, 0x44(%rsp)
    cld
    .endm
/* Where nothing was raised the caller goes on. */
    .macro GO_ON
    mov 0xa8(%rsp), %rsi
    mov 0xb0(%rsp), %rdi
    XMM LOAD_XMM, 0x1a0, %rsp
    add $0x4d8, %rsp
    ret
    .endm
    .macro RAISES name, to, kind
STUB \name
    CAPTURE
    mov %rsp, %rdi
    mov $\kind, %esi
    call \to
    GO_ON
    .endm

    .section kz_stubs, "ax", @progbits
/* These lines are read by the Makefile too: a stub each.
STUB ExRaiseStatus
STUB RtlRaiseStatus
STUB ExRaiseAccessViolation
STUB ExRaiseDatatypeMisalignment
STUB ProbeForRead
STUB ProbeForWrite
STUB _local_unwind
STUB RtlCaptureContext
*/
    RAISES ExRaiseStatus, kz_raise_status, 0
    RAISES RtlRaiseStatus, kz_raise_status, 0
    RAISES ExRaiseAccessViolation, kz_raise_status, 1
    RAISES ExRaiseDatatypeMisalignment, kz_raise_status, 2
    RAISES ProbeForRead, kz_probe, 0
    RAISES ProbeForWrite, kz_probe, 1
    RAISES _local_unwind, kz_unwind_locally, 0
    RAISES RtlCaptureContext, kz_capture, 0

STUB __C_specific_handler
    jmp kz_c_specific_handler

/* A function with large locals touches the stack's pages first, of so many bytes as rax says: they are there, and it is looked whether a stack of the kernel's has as many. Each register stays. */
STUB __chkstk
STUB ___chkstk_ms
    .irp r, rax, rcx, rdx, rsi, rdi, r8, r9, r10, r11
    push %\r
    .endr
    lea 80(%rsp), %rdi
    sub %rax, %rdi
    mov 72(%rsp), %rsi
    push %rbp
    mov %rsp, %rbp
    and $-16, %rsp
    sub $0x100, %rsp
    .irp n, 0, 1, 2, 3, 4, 5, 6, 7, 8, 9, 10, 11, 12, 13, 14, 15
    movaps %xmm\n, 16*\n(%rsp)
    .endr
    cld
    call kz_look_at_probe
    .irp n, 0, 1, 2, 3, 4, 5, 6, 7, 8, 9, 10, 11, 12, 13, 14, 15
    movaps 16*\n(%rsp), %xmm\n
    .endr
    mov %rbp, %rsp
    .irp r, rbp, r11, r10, r9, r8, rdi, rsi, rdx, rcx, rax
    pop %\r
    .endr
    ret

/* ---- Copies. They may touch what isn't there on behalf of the binary: then the return address is on top of the stack, and rsi and rdi are in r10 and r11. Where accesses are watched, they are
   told first; the registers stay in the room that a caller leaves for them. */
    .macro WATCH
    cmpb $0, kz_watches_copies(%rip)
    je 9f
    mov %rcx, 8(%rsp)
    mov %rdx, 16(%rsp)
    mov %r8, 24(%rsp)
    mov (%rsp), %r9
    sub $40, %rsp
    call kz_watch_copy
    add $40, %rsp
    mov 8(%rsp), %rcx
    mov 16(%rsp), %rdx
    mov 24(%rsp), %r8
9:
    .endm
    .globl kz_copies
kz_copies:
STUB memcpy
    WATCH
copy:
    mov %rsi, %r10
    mov %rdi, %r11
    mov %rcx, %rax
    mov %rcx, %rdi
    mov %rdx, %rsi
    mov %r8, %rcx
    rep movsb
    mov %r10, %rsi
    mov %r11, %rdi
    ret
STUB memmove
STUB RtlMoveMemory
STUB RtlCopyMemory
    WATCH
    mov %rcx, %rax
    sub %rdx, %rax
    cmp %r8, %rax
    jae copy
    mov %rsi, %r10
    mov %rdi, %r11
    mov %rcx, %rax
    lea -1(%rcx,%r8), %rdi
    lea -1(%rdx,%r8), %rsi
    mov %r8, %rcx
    std
    rep movsb
    cld
    mov %r10, %rsi
    mov %r11, %rdi
    ret
STUB RtlZeroMemory
    mov %rdx, %r8
    xor %edx, %edx
    jmp kz_stub_memset
STUB RtlFillMemory
    xchg %rdx, %r8
STUB memset
    mov %rdx, %rax
    xor %edx, %edx
    mov %rax, 32(%rsp)
    WATCH
    mov 32(%rsp), %rdx
    mov %rsi, %r10
    mov %rdi, %r11
    mov %rcx, %r9
    mov %rcx, %rdi
    mov %edx, %eax
    mov %r8, %rcx
    rep stosb
    mov %r9, %rax
    mov %r10, %rsi
    mov %r11, %rdi
    ret
    .globl kz_copies_end
kz_copies_end:
    .section .note.GNU-stack, "", @progbits
