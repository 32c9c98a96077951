# The box's way into 64 bits, and into the kernel. A loader that knows PVH (qemu -kernel) jumps to `start`, in 32 bits
# and without paging. What is below 1 GiB stays where it is.

    .section .note.pvh, "a", @note
    .long 4, 4, 18                      # 18: the 32-bit entry follows
    .asciz "Xen"
    .long start

    .text
    .code32
    .globl start
start:
    movl $pdpt + 3, pml4
    movl $pages + 3, pdpt
    xor %ecx, %ecx
1:  mov %ecx, %eax                      # 512 pages of 2 MiB
    shl $21, %eax
    or $0x83, %eax
    mov %eax, pages(, %ecx, 8)
    inc %ecx
    cmp $512, %ecx
    jne 1b
    mov $pml4, %eax
    mov %eax, %cr3
    mov $0x620, %eax                    # long page entries; SSE is on, which the core needs, and so is fxsave
    mov %eax, %cr4
    mov $0xC0000080, %ecx               # long mode
    rdmsr
    or $0x100, %eax
    wrmsr
    mov $0x80000003, %eax               # paging and protection; no emulated floating point
    mov %eax, %cr0
    lgdt gdt_pointer
    ljmp $8, $1f
    .code64
1:  mov $16, %eax
    mov %eax, %ds
    mov %eax, %es
    mov %eax, %ss
    lea kernel_stack_end(%rip), %rsp    # on 16 bytes where a function is called, as the ABI has it
    cld                                 # and the direction flag clear
    call boot

# Every interrupt, trap and call of a thread comes in here, by a stub of 16 bytes that says its number. The processor
# has changed to the entry stack (IST 1) before: nothing is written below the stack pointer of what was interrupted. It
# has pushed five words there, the stub pushes one and `entry` fifteen.
    .globl stubs
    .balign 16
stubs:
    .set number, 0
    .rept 256
    .balign 16
    push $number
    jmp entry
    .set number, number + 1
    .endr

    .globl stepped
stepped:                                # after an instruction, where the kernel wants it so
    incq steps(%rip)
    iretq

entry:
    .irp register, rax, rbx, rcx, rdx, rsi, rdi, rbp, r8, r9, r10, r11, r12, r13, r14, r15
    push %\register
    .endr
    cld
    mov %rsp, %rdi                      # struct frame
    cmpl $0, inside(%rip)
    jne 1f
    lea kernel_stack_end(%rip), %rsp    # a thread was interrupted: the kernel works on its own stack, since it lets
    call enter                          # further interrupts in, which come in on the entry stack
    mov %rax, %rdi
    .globl leave
leave:                                  # goes on as the frame says
    mov %rdi, %rsp
    jmp 2f
1:  sub $8, %rsp                        # the kernel was interrupted: that is only noted. 21 words and this one are
    call note                           # a multiple of 16 bytes
    add $8, %rsp
2:  .irp register, r15, r14, r13, r12, r11, r10, r9, r8, rbp, rdi, rsi, rdx, rcx, rbx, rax
    pop %\register
    .endr
    add $8, %rsp
    iretq

    .data
    .balign 16
    .globl gdt
gdt:
    .quad 0
    .quad 0x00209A0000000000            # 8: code of 64 bits
    .quad 0x0000920000000000            # 16: data
    .quad 0, 0                          # 24: the task state, which names the entry stack
gdt_pointer:
    .word 39
    .quad gdt

    .bss
    .balign 4096
pml4:
    .skip 4096
pdpt:
    .skip 4096
pages:
    .skip 4096
kernel_stack:
    .skip 8192
kernel_stack_end:
    .globl entry_stack_end
entry_stack:
    .skip 4096
entry_stack_end:
    .section .note.GNU-stack, "", @progbits
